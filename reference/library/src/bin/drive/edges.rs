//! Words at the edge of their range, which are still sound, words past the count, which change no answer, removals at
//! the edge of theirs, and requests by calendar on the last date.

use reference::generator::days::NO_DATES;
use reference::words::{self, place, BLANK, COUNT};

use crate::base::{changed, describe, ledger, numbers, undated, Change, BILLS};
use crate::both::Both;
use crate::call::Call;
use crate::tally::Tally;

pub fn drive(tally: &mut Tally) -> Result<(), String> {
    let words = ledger(&BILLS);
    let plain = numbers(&words, tally)?;
    if plain.contains(&2) {
        return Err(format!("the ledger that is to be changed: {plain:?}"));
    }
    for change in edges() {
        if try_change(&words, &change, tally)?.contains(&2) {
            return Err(format!("{}: answered 2, expected a sound ledger", describe(&change)));
        }
    }
    for change in past_the_count() {
        if try_change(&words, &change, tally)? != plain {
            return Err(format!("{}: an answer changed", describe(&change)));
        }
    }
    removals(&words, tally)?;
    last_day(&words, tally)
}

/// On the last date there is no business day further on, by each number.
fn last_day(words: &[u64], tally: &mut Tally) -> Result<(), String> {
    let words = changed(words, &vec![(0, 29991231)]);
    for number in 1..=9 {
        let call = Call::Calendar { request: undated(9, 90), number, holidays: vec![] };
        if Both::of(&words).plain(tally, &call)? != 15 {
            return Err(format!("{call} on 29991231: not 15"));
        }
    }
    Ok(())
}

/// Accounts and dates of a removal at the edge of their range, and past it.
fn removals(words: &[u64], tally: &mut Tally) -> Result<(), String> {
    let known = BILLS[0][0];
    let dates = [19000101, 20000229, 29991231].map(|date| (known, date, 0));
    let no_dates = NO_DATES.map(|date| (known, date, 2));
    let others = [0, 10_u64.pow(12) - 1].map(|account| (account, 20171120, 0));
    let too_wide = [10_u64.pow(12), 10_u64.pow(12) + known, known + (1 << 40), known + (1 << 63), u64::MAX];
    let too_wide = too_wide.map(|account| (account, 20171120, 2));
    for (account, date, wanted) in [&dates[..], &no_dates, &others, &too_wide].concat() {
        let call = Call::Removal { account, date };
        if Both::of(words).plain(tally, &call)? != wanted {
            return Err(format!("{call}: not {wanted}"));
        }
    }
    Ok(())
}

fn try_change(words: &[u64], change: &Change, tally: &mut Tally) -> Result<Vec<u64>, String> {
    let told = |told: String| format!("{}: {told}", describe(change));
    let words = changed(words, change);
    words::read(&words).ok_or(told("drive itself takes this for unsound".into()))?;
    tally.label("ledgers changed within soundness by hand".into());
    numbers(&words, tally).map_err(told)
}

/// The least and the greatest that a word may hold, and what lies between if it is special.
fn edges() -> Vec<Change> {
    let mut changes: Vec<Change> = vec![vec![(COUNT, 0)], vec![(COUNT, 1)], vec![(COUNT, 5)]];
    let mut single = |at: usize, values: &[u64]| changes.extend(values.iter().map(|value| vec![(at, *value)]));
    let dates = [19000101, 19000228, 20000229, 29991231];
    single(0, &dates);
    single(1, &[1, 999_999_999, 1_000_000_000]);
    single(2, &[1, 999_999_999, 1_000_000_000]);
    for (at, bill) in BILLS.iter().enumerate() {
        single(place(at), &[1, 10_u64.pow(12) - 1]);
        single(place(at) + 1, &[1, 9998]);
        (2..4).for_each(|field| single(place(at) + field, &b"09AZ".map(u64::from)));
        (4..6).for_each(|field| single(place(at) + field, &b"09".map(u64::from)));
        single(place(at) + 7, &[bill[8], 999]);
        single(place(at) + 8, &[1, bill[7]]);
        single(place(at) + 10, &[1, 999_999_999]);
        single(place(at) + 11, &[0, 9_999_999_999]);
        (12..15).for_each(|field| single(place(at) + field, &dates));
        single(place(at) + 19, &[0, 19000101, 20000229, 20171114, 29991231]);
    }
    // Bills without amounts: the other product, the mark, a posted charge of 0.
    (2..5).for_each(|at| single(place(at) + 6, &[66, 80]));
    (2..5).for_each(|at| single(place(at) + 9, &[0, 1]));
    single(place(2) + 15, &[1]);
    single(place(3) + 15, &[2]);
    single(place(0) + 16, &[0, 9_999_999_999_999]);
    for (charge, applied) in [(0, 0), (9_999_999_999_999, 0), (9_999_999_999_999, 9_999_999_999_999), (251, 1)] {
        let amounts = [charge, applied, charge - applied];
        changes.push(amounts.iter().enumerate().map(|(at, amount)| (place(1) + 16 + at, *amount)).collect());
    }
    changes
}

/// Anything of the form in a place that holds no bill: the least and the greatest, and bills that would be found.
fn past_the_count() -> Vec<Change> {
    let mut changes: Vec<Change> = Vec::new();
    for at in [BILLS.len(), BILLS.len() + 1, 127] {
        for field in 0..BLANK.len() {
            let values: &[u64] = match field {
                2..=5 => &[1, 67, 255],
                6 => &[80],
                9 => &[1],
                15 => &[1, 2],
                16..=18 => &[],
                _ => &[1, 20171116, u64::MAX],
            };
            changes.extend(values.iter().map(|value| vec![(place(at) + field, *value)]));
        }
        changes.push(vec![(place(at) + 15, 1), (place(at) + 16, u64::MAX)]);
        changes.push((15..19).map(|field| (place(at) + field, if field == 15 { 2 } else { u64::MAX })).collect());
        // The calls' own bills: one known already, one that a request adds, one that a lookup must not find.
        for (account, key) in [(123_456_780_019, 7), (123_456_780_019, 9), (8, 8)] {
            let mut bill = BILLS[0];
            (bill[0], bill[1]) = (account, key);
            changes.push(bill.iter().enumerate().map(|(field, word)| (place(at) + field, *word)).collect());
        }
    }
    changes
}
