//! Requests that leave their Scheduled Date to the calendar: their causes in order, ledger and history side by side.

mod common;
use std::collections::BTreeMap;

use common::*;
use reference::calendar::business_day;
use reference::generator::{self, days};
use reference::history::{Call, History};
use reference::journal::{carry_out, follow, Entries, Entry, Next};
use reference::prng::Prng;
use reference::{CalendarRequest, Cause, Ledger, Request};

/// The request of a body with a number in place of its Scheduled Date.
fn asked(body: &[u8; 48], number: u64) -> Result<CalendarRequest, Cause> {
    let dated: [u8; 56] = [&body[..], b"19000101"].concat().try_into().expect("56 bytes");
    let Request { rate_code, identity, product, billing_date, from_date, consumption, .. } = Request::read(&dated)?;
    Ok(CalendarRequest { rate_code, identity, product, billing_date, from_date, consumption, number })
}

fn undated(body: &[u8; 56]) -> &[u8; 48] {
    body.first_chunk().expect("48 bytes")
}

/// The cause of a request by calendar, after which nothing has changed.
fn refused(ledger: &Ledger, body: &[u8; 56], number: u64, holidays: &[u64], length: usize) -> Cause {
    let (mut after, mut out) = (ledger.clone(), vec![7; length]);
    let result = asked(undated(body), number).and_then(|a| after.request_by_calendar(&a, holidays, Some(&mut out)));
    assert!(out.iter().all(|byte| *byte == 7) && after == *ledger);
    result.unwrap_err()
}

#[test]
fn three_days_on() {
    let (mut by_calendar, mut by_hand) = (fresh(), fresh());
    let (mut out, number) = (vec![7; 700], asked(undated(BILL_READY), 3).unwrap());
    by_calendar.request_by_calendar(&number, &[20161226], Some(&mut out)).unwrap();
    let notice = request(&mut by_hand, BILL_READY).unwrap();
    assert!(by_calendar == by_hand && out[..642] == notice && out[642..].iter().all(|byte| *byte == 7));
    assert_eq!(by_calendar.bills()[0].scheduled_date.number(), 20171116);
}

#[test]
fn order() {
    let ledger = two_bills();
    let mut bad = *BILL_READY;
    bad[21] = b'X';
    let falling = [20171115, 20171114];
    assert_eq!(refused(&ledger, &bad, 3, &falling, 0), Cause::BadField);
    assert_eq!(refused(&ledger, BILL_READY, 10, &falling, 0), Cause::BadField);
    assert_eq!(refused(&ledger, BILL_READY, 0, &falling, 0), Cause::BadHolidays);
    let last = Ledger::fresh(b"29991231", b"000000001", b"000000001").unwrap();
    assert_eq!(refused(&last, BILL_READY, 1, &falling, 0), Cause::BadHolidays);
    assert_eq!(refused(&last, BILL_READY, 1, &[], 0), Cause::NoBusinessDay);
    assert_eq!(refused(&last, BILL_READY, 0, &[], 641), Cause::OutputTooShort);
    assert_eq!(refused(&ledger, BILL_READY, 0, &[], 642), Cause::ConsumptionUnchanged);
}

/// One call on a ledger and in the history; returns its change.
fn both(ledger: &mut Ledger, history: &mut History, entry: Entry) -> i64 {
    let call = match entry {
        Entry::Request(body) => Call::Request(body),
        Entry::File(file) => Call::File(file),
        Entry::Cancel(body) => Call::Cancel(body),
        Entry::Close(body) => Call::Close(body),
        Entry::Removal(body) => Call::Removal(body),
        Entry::Fresh(_) => unreachable!("the first entry only"),
    };
    let (result, past) = (carry_out(ledger, entry, None), history.call(call, 64_200));
    assert_eq!(result.err().map(Cause::number), past);
    result.map_or(0, |effect| effect.change)
}

/// A request by calendar, which leaves and writes what the request with the date worked out leaves and writes.
fn by_calendar(ledger: &mut Ledger, history: &mut History, rng: &mut Prng, body: &[u8; 48]) -> Option<u8> {
    let today = ledger.today().number().into();
    let (number, holidays) = (days::some_number(rng), days::some_holidays(rng, today));
    let length = *rng.pick(&[0, 641, 642, 642, 642, 700]);
    let (mut out, mut dated_out, mut dated) = (vec![7; length], vec![7; length], ledger.clone());
    let past = history.call(Call::Calendar(body, number, &holidays), length);
    let result = asked(body, number).and_then(|a| ledger.request_by_calendar(&a, &holidays, Some(&mut out)));
    if let (Ok(asked), Ok(day)) = (asked(body, number), business_day(today, number, &holidays)) {
        assert_eq!(dated.request(&asked.dated(day), Some(&mut dated_out)), result);
    }
    assert!(dated == *ledger && dated_out == out);
    assert_eq!(result.err().map(Cause::number), past);
    past
}

#[test]
fn ledger_and_history() {
    let mut causes: BTreeMap<Option<u8>, u64> = BTreeMap::new();
    for seed in 1..=3000 {
        let (journal, mut rng) = (generator::make(seed), Prng::new(seed));
        let mut entries = Entries::new(&journal[..]);
        let Ok(Next::Entry(Entry::Fresh(body))) = entries.read_next() else { continue };
        let Some(mut history) = History::fresh(body) else { continue };
        let mut changes = 0;
        let replayed = follow(&journal[..], |ledger, entry| {
            if let (Entry::Request(body), true) = (entry, rng.chance(30)) {
                let cause = by_calendar(ledger, &mut history, &mut rng, undated(body));
                *causes.entry(cause).or_default() += 1;
                // If it is refused, the request itself follows, so that the journal goes its way.
                if cause.is_none() {
                    return Ok(());
                }
            }
            changes += both(ledger, &mut history, entry);
            Ok(())
        });
        let total = replayed.unwrap().ledger.unwrap().total().0;
        assert_eq!((history.sum(), changes), (total, total as i64), "seed {seed}");
    }
    for cause in [2, 14, 15, 1, 3, 5, 6, 7, 8, 12].map(Some).into_iter().chain([None]) {
        assert!(causes.get(&cause).is_some_and(|count| *count > 9), "{cause:?}: {causes:?}");
    }
    assert!(!causes.contains_key(&Some(9)));
}
