//! Ledgers made unsound word by word: every call but fresh answers 2 and changes nothing.

use reference::generator::days::NO_DATES;
use reference::groups;
use reference::journal::FRESH;
use reference::words::{self, place, BLANK, COUNT};

use crate::base::{calls, changed, describe, full, ledger, numbers, Change, Place, BILLS};
use crate::both::Both;
use crate::call::Call;
use crate::tally::Tally;

pub fn drive(tally: &mut Tally) -> Result<(), String> {
    let words = ledger(&BILLS);
    let fresh = Call::Fresh { today: 20171201, tracking: 5, confirmation: 6 };
    let fresh_entry = Call::Entry { journal: groups::entry(FRESH, b"20171201000000005000000006"), seen: 0 };
    for change in heads().into_iter().chain(single_words()).chain(together()).chain(past_the_count()) {
        let told = |told: String| format!("{}: {told}", describe(&change));
        let bad = changed(&words, &change);
        if words::read(&bad).is_some() {
            return Err(told("drive itself takes this for sound".into()));
        }
        if numbers(&bad, tally).map_err(told)?.iter().any(|number| *number != 2) {
            return Err(told("not 2".into()));
        }
        Both::of(&bad).plain(tally, &fresh).map_err(told)?;
        Both::of(&bad).plain(tally, &fresh_entry).map_err(told)?;
        tally.label("ledgers made unsound by hand".into());
    }
    full_ledger(tally)?;
    lengths(tally)
}

/// Any number of words but 2564 is no ledger, for fresh too; 2436 were one before there were removal dates.
fn lengths(tally: &mut Tally) -> Result<(), String> {
    let words = ledger(&BILLS);
    let fresh = Call::Fresh { today: 20171201, tracking: 5, confirmation: 6 };
    for length in [0, 1, 3, 4, 124, 2436, 2563, 2565, 2 * 2564] {
        let other: Vec<u64> = words.iter().chain(&words).copied().take(length).collect();
        for (call, output) in calls().into_iter().chain([(fresh.clone(), 0)]) {
            let number = Both::of(&other).call(tally, &call, output);
            if number.map_err(|told| format!("a ledger of {length} words: {told}"))? != 2 {
                return Err(format!("a ledger of {length} words: {call} did not answer 2"));
            }
        }
        fresh_entries(&other, tally).map_err(|told| format!("a ledger of {length} words: {told}"))?;
    }
    Ok(())
}

/// A good fresh asks for the number of words, a refused one is a bad entry before that.
fn fresh_entries(words: &[u64], tally: &mut Tally) -> Result<(), String> {
    for (body, wanted) in [(b"20171201000000005000000006", 2), (b"20171200000000005000000006", 13)] {
        let call = Call::Entry { journal: groups::entry(FRESH, body), seen: 0 };
        if Both::of(words).call(tally, &call, 0)? != wanted {
            return Err(format!("{call} did not answer {wanted}"));
        }
    }
    Ok(())
}

/// 128 bills: in each word the greatest number is bad, and so is the identity of another, near or far.
fn full_ledger(tally: &mut Tally) -> Result<(), String> {
    let words = full();
    words::read(&words).ok_or("128 bills: drive itself takes them for unsound")?;
    let mut changes: Vec<Change> = (0..words.len()).map(|at| vec![(at, u64::MAX)]).collect();
    for later in 1..128 {
        for earlier in [0, later / 2, later - 1] {
            changes.push((0..2).map(|field| (place(later) + field, words[place(earlier) + field])).collect());
        }
    }
    let calls = calls();
    for (at, change) in changes.iter().enumerate() {
        let (call, length) = &calls[at % calls.len()];
        let told = |told: String| format!("{} of 128 bills: {told}", describe(change));
        if Both::of(&changed(&words, change)).call(tally, call, *length).map_err(told)? != 2 {
            return Err(told("not 2".into()));
        }
    }
    Ok(())
}

/// Today, the next numbers and the count.
fn heads() -> Vec<Change> {
    let mut changes: Vec<Change> = NO_DATES.iter().map(|date| vec![(0, *date)]).collect();
    for (at, old) in [(1, 77), (2, 88)] {
        changes.extend([0, 1_000_000_001, (1 << 32) + old, u64::MAX].map(|number| vec![(at, number)]));
    }
    // 7 and 128 count a blank place in.
    let counts = [7, 128, 129, 130, 256 + 6, (1 << 16) + 6, (1 << 32) + 6, 1 << 63, u64::MAX];
    changes.extend(counts.map(|count| vec![(COUNT, count)]));
    changes
}

/// One word of a bill.
fn single_words() -> Vec<Change> {
    let mut changes = Vec::new();
    for (at, bill) in BILLS.iter().enumerate() {
        for field in 0..bill.len() {
            changes.extend(bad_values(field, bill).into_iter().map(|value| vec![(place(at) + field, value)]));
        }
    }
    changes
}

/// What a word of this bill may not hold, the others being as they are.
fn bad_values(field: usize, bill: &Place) -> Vec<u64> {
    let old = bill[field];
    let bytes = |bytes: &[u8]| bytes.iter().map(|byte| u64::from(*byte)).collect::<Vec<_>>();
    let beyond = |limit: u64| vec![limit, limit + old, limit + 1];
    let mut bad = match field {
        0 => beyond(10_u64.pow(12)),
        1 => [beyond(10_000), vec![old + (1 << 16)]].concat(),
        2 | 3 => [bytes(b"az /:@[\x00\xff"), vec![300, old + 256]].concat(),
        4 | 5 => [bytes(b"ACZaz /:\x00\xff"), vec![300, old + 256]].concat(),
        6 => [bytes(b"ACOQbp\x00\xff"), vec![66 + 256, 80 + 256]].concat(),
        7 => vec![0, bill[8] - 1, 1000, old + (1 << 16)],
        8 => vec![0, bill[7] + 1, 1000, old + (1 << 16)],
        9 => vec![2, 3, old + 256],
        10 => [beyond(1_000_000_000), vec![0]].concat(),
        11 => beyond(10_u64.pow(10)),
        12..=14 => NO_DATES.to_vec(),
        15 => vec![3, 4, old + 256],
        19 => NO_DATES.into_iter().filter(|number| *number != 0).collect(),
        _ => bad_amounts(field, bill),
    };
    bad.extend(misfits(field, bill));
    // An account, a consumption and amounts may be so large; nothing else may.
    if (1..=10).contains(&field) || (12..=15).contains(&field) || field == 19 {
        bad.push(old + (1 << 32));
    }
    bad.extend([old + (1 << 44), u64::MAX - 1, u64::MAX]);
    bad
}

/// Values that are good elsewhere, but not with this bill's product, mark and amounts.
fn misfits(field: usize, bill: &Place) -> Vec<u64> {
    let (posted, product, cancelled) = (bill[15] != 0, bill[6], bill[9] == 1);
    let misfit = |kind: &u64| match kind {
        0 => posted,
        1 => product == 80 || cancelled,
        _ => product == 66 || cancelled,
    };
    match field {
        6 if posted => vec![if product == 66 { 80 } else { 66 }],
        9 if posted => vec![1],
        15 => (0..=2).filter(|kind| *kind != bill[15] && misfit(kind)).collect(),
        _ => vec![],
    }
}

/// Charge, applied and owed: 0 where the kind does not use them, 13 digits, and the sum right.
fn bad_amounts(field: usize, bill: &Place) -> Vec<u64> {
    let old = bill[field];
    let wide = vec![10_u64.pow(13), 10_u64.pow(13) + old];
    match (bill[15], field) {
        (1, 16) => wide,
        (2, _) => [wide, vec![old + 1, old.wrapping_sub(1), old + (1 << 32)]].concat(),
        _ => vec![1, 4250],
    }
}

/// Words that are bad only together.
fn together() -> Vec<Change> {
    let mut changes: Vec<Change> = Vec::new();
    for later in 1..BILLS.len() {
        for [account, key, ..] in BILLS[..later].iter().copied() {
            changes.push(vec![(place(later), account), (place(later) + 1, key)]);
        }
    }
    let amounts =
        |charge, applied, owed| vec![(place(1) + 16, charge), (place(1) + 17, applied), (place(1) + 18, owed)];
    let wide = 10_u64.pow(13);
    changes.extend([
        amounts(4250, u64::MAX, 4251),
        amounts(4250, 1 << 63, (1 << 63) + 4250),
        amounts(wide, wide, 0),
        amounts(wide, wide - 1, 1),
        amounts(0, 1, u64::MAX),
        vec![(place(0) + 7, 0), (place(0) + 8, 0)],
        vec![(place(0) + 7, 1000), (place(0) + 8, 1000)],
        // A Prepay bill with a Bill Ready charge, and the other way round.
        vec![(place(1) + 15, 1), (place(1) + 17, 0), (place(1) + 18, 0)],
        vec![(place(0) + 15, 2), (place(0) + 17, 4000), (place(0) + 18, 250)],
        // A posted charge of 0 is not none, so a cancelled bill has none.
        vec![(place(4) + 15, 1)],
    ]);
    changes
}

/// Past the count only the form is asked for.
fn past_the_count() -> Vec<Change> {
    let mut changes: Vec<Change> = Vec::new();
    for at in [BILLS.len(), BILLS.len() + 1, 127] {
        for (field, blank) in BLANK.iter().enumerate() {
            let bad: &[u64] = match field {
                2..=5 => &[256, 300, 65536, 1 << 32, u64::MAX],
                6 => &[0, 65, 67, 79, 81, 66 + 256, u64::MAX],
                9 => &[2, 256, u64::MAX],
                15 => &[3, 256, u64::MAX],
                16..=18 => &[1, u64::MAX],
                _ => &[],
            };
            changes.extend(bad.iter().map(|value| vec![(place(at) + field, *value)]));
            if [2, 3, 4, 5, 6, 9, 15].contains(&field) {
                changes.push(vec![(place(at) + field, blank + (1 << 32))]);
            }
        }
        changes.push(vec![(place(at) + 15, 1), (place(at) + 17, 1)]);
        changes.push(vec![(place(at) + 15, 1), (place(at) + 16, 1), (place(at) + 18, 1)]);
    }
    changes
}
