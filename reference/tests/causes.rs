//! Causes 1 to 12: each at least once, their order, and that a refused call leaves ledger and output as they were.

mod common;
use common::*;
use reference::{groups, Cause, Ledger, Request};

/// Refused with this cause, and nothing has changed.
fn refused(ledger: &Ledger, body: &[u8; 56], length: usize) -> Cause {
    let (mut after, mut out) = (ledger.clone(), vec![7; length]);
    let result = Request::read(body).and_then(|request| after.request(&request, Some(&mut out)));
    assert!(out.iter().all(|byte| *byte == 7) && after == *ledger);
    result.unwrap_err()
}

fn scheduled(body: &[u8; 56], date: &[u8; 8]) -> [u8; 56] {
    let mut changed = *body;
    changed[48..].copy_from_slice(date);
    changed
}

fn refused_file(ledger: &Ledger, file: &[u8], length: usize) -> Cause {
    let (mut after, mut out) = (ledger.clone(), vec![7; length]);
    let cause = after.file(file, Some(&mut out)).unwrap_err();
    assert!(out.iter().all(|byte| *byte == 7) && after == *ledger);
    cause
}

#[test]
fn fresh_2() {
    for (today, tracking, confirmation) in [
        (&b"20170229"[..], &b"000000001"[..], &b"000000001"[..]),
        (b"20171113", b"000000000", b"000000001"),
        (b"20171113", b"000000001", b"000000000"),
        (b"20171113", b"1000000000", b"000000001"),
        (b"20171113", b"00000000A", b"000000001"),
        (b"2017111", b"000000001", b"000000001"),
    ] {
        assert_eq!(Ledger::fresh(today, tracking, confirmation).unwrap_err(), Cause::BadField);
    }
    assert!(Ledger::fresh(b"20171113", b"999999999", b"999999999").is_ok());
}

#[test]
fn request_2_each_field() {
    for (place, byte) in
        [(0, b'z'), (1, b' '), (2, b'D'), (3, b'A'), (4, b' '), (5, b'-'), (17, b' '), (21, b'X'), (22, b'3')]
    {
        let mut body = *BILL_READY;
        body[place] = byte;
        assert_eq!(refused(&fresh(), &body, 642), Cause::BadField);
    }
    for place in [30, 38, 48] {
        let mut body = *BILL_READY;
        body[place] = b'/';
        assert_eq!(refused(&fresh(), &body, 642), Cause::BadField);
    }
}

#[test]
fn request_order() {
    let mut ledger = two_bills();
    let changed = with_consumption(BILL_READY, 86);
    let mut bad = changed;
    bad[21] = b'X';
    assert_eq!(refused(&ledger, &bad, 0), Cause::BadField);
    let early = scheduled(BILL_READY, b"20171112");
    assert_eq!(refused(&ledger, &early, 641), Cause::OutputTooShort);
    assert_eq!(refused(&ledger, &early, 642), Cause::ScheduledBeforeToday);
    let mut other = *BILL_READY;
    other[4] = b'1';
    assert_eq!(refused(&ledger, &other, 642), Cause::NotTheBills);
    other = *BILL_READY;
    other[21] = b'P';
    assert_eq!(refused(&ledger, &other, 642), Cause::NotTheBills);
    assert_eq!(refused(&ledger, BILL_READY, 642), Cause::ConsumptionUnchanged);
    assert_eq!(refused(&ledger, &scheduled(BILL_READY, b"20171120"), 642), Cause::ConsumptionUnchanged);
    ledger.cancel(ACCOUNT, b"0007", None).unwrap();
    assert_eq!(refused(&ledger, &other, 642), Cause::BillCancelled);
    assert_eq!(refused(&ledger, &changed, 642), Cause::BillCancelled);
    assert_eq!(refused(&ledger, &scheduled(&other, b"20171112"), 642), Cause::ScheduledBeforeToday);
}

#[test]
fn request_8_and_12() {
    let mut ledger = Ledger::fresh(b"20171113", b"999999000", b"999999000").unwrap();
    for count in 1..=999 {
        request(&mut ledger, &with_consumption(BILL_READY, count)).unwrap();
    }
    assert_eq!(ledger.bills()[0].sequence, 999);
    assert_eq!(ledger.next_numbers(), (999_999_999, 999_999_999));
    assert_eq!(refused(&ledger, &with_consumption(BILL_READY, 999), 642), Cause::ConsumptionUnchanged);
    assert_eq!(refused(&ledger, &with_consumption(BILL_READY, 1), 642), Cause::LastSequence);
    request(&mut ledger, PREPAY).unwrap();
    assert_eq!(ledger.next_numbers(), (1_000_000_000, 1_000_000_000));
    assert_eq!(refused(&ledger, &with_consumption(BILL_READY, 1), 642), Cause::LastSequence);
    assert_eq!(refused(&ledger, &with_consumption(PREPAY, 1), 642), Cause::NumbersUsedUp);
    assert_eq!(ledger.cancel(ACCOUNT, b"0008", None), Err(Cause::NumbersUsedUp));
}

#[test]
fn file_order() {
    let ledger = two_bills();
    let good = groups::file(&[rsp(&ledger, 0, 4250)]);
    assert_eq!(refused_file(&ledger, &good, 641), Cause::OutputTooShort);
    assert_eq!(refused_file(&ledger, &good[..641], 0), Cause::BadFile);
    let bad = |place: usize, byte: u8| {
        let mut file = good.clone();
        file[place] = byte;
        refused_file(&ledger, &file, 642)
    };
    for (place, byte) in [(0, 31), (319, 127), (100, 13), (320, 10), (641, 32), (29, b'3'), (28, b'1'), (29, b'2')] {
        assert_eq!(bad(place, byte), Cause::BadFile);
    }
    let headers = good[..321].repeat(201);
    assert_eq!(refused_file(&ledger, &headers, 70_000), Cause::BadFile);
    assert!(ledger.clone().file(&headers[321..], Some(&mut vec![0; 64_200])).is_ok());
    assert_eq!(ledger.clone().file(&[], Some(&mut [])).unwrap().written, 0);
}

#[test]
fn file_12() {
    // One Tracking ID and two Confirmation Numbers are left.
    let mut ledger = Ledger::fresh(b"20171113", b"999999998", b"999999997").unwrap();
    request(&mut ledger, &scheduled(BILL_READY, b"20171113")).unwrap();
    ledger.close(b"20171114").unwrap();
    let (one, other) = (sup(&ledger, 0, 1), header(rsp(&ledger, 0, 1), 59, "02"));
    let of = |groups: &[_]| groups::file(groups);
    let three = [other.clone(), other.clone(), other.clone()];
    assert_eq!(refused_file(&ledger, &of(&three), 10_000), Cause::NumbersUsedUp);
    // Two SUP headers need two Tracking IDs, though the second is sure to be rejected.
    let two = [one.clone(), header(one.clone(), 59, "02")];
    assert_eq!(refused_file(&ledger, &of(&two), 10_000), Cause::NumbersUsedUp);
    assert_eq!(refused_file(&ledger, &of(&two), 10), Cause::OutputTooShort);
    let (accepted, rejected, _, _) = file(&mut ledger, &[one, other]);
    assert_eq!((accepted, rejected, ledger.next_numbers()), (1, 1, (1_000_000_000, 999_999_999 + 1)));
    assert!(ledger.file(&[], None).is_ok());
}

#[test]
fn cancel_order() {
    let mut ledger = two_bills();
    assert_eq!(ledger.cancel(b"12345678001A", b"0007", Some(&mut [])), Err(Cause::BadField));
    assert_eq!(ledger.cancel(ACCOUNT, b"0009", Some(&mut [0; 641])), Err(Cause::OutputTooShort));
    assert_eq!(ledger.cancel(ACCOUNT, b"0009", Some(&mut [0; 642])), Err(Cause::NoSuchBill));
    assert!(ledger.cancel(ACCOUNT, b"0007", Some(&mut [0; 642])).is_ok());
    assert_eq!(ledger.cancel(ACCOUNT, b"0007", None), Err(Cause::BillCancelled));
}

#[test]
fn close_order_and_count() {
    let mut ledger = two_bills();
    assert_eq!(ledger.close(b"20171131"), Err(Cause::BadField));
    assert_eq!(ledger.close(b"20171113"), Err(Cause::DateNotAfterToday));
    assert_eq!(ledger.close(b"20171112"), Err(Cause::DateNotAfterToday));
    ledger.cancel(ACCOUNT, b"0007", None).unwrap();
    assert_eq!(ledger.close(b"20171116"), Ok(0));
    assert_eq!(ledger.close(b"20171117"), Ok(1));
    assert_eq!(ledger.close(b"20171118"), Ok(0));
}

#[test]
fn numbers() {
    let all = [Cause::OutputTooShort, Cause::BadField, Cause::LedgerFull, Cause::NoSuchBill, Cause::BillCancelled];
    assert_eq!(all.map(Cause::number), [1, 2, 3, 4, 5]);
    let rest = [Cause::NotTheBills, Cause::ConsumptionUnchanged, Cause::LastSequence, Cause::ScheduledBeforeToday];
    assert_eq!(rest.map(Cause::number), [6, 7, 8, 9]);
    let last = [Cause::DateNotAfterToday, Cause::BadFile, Cause::NumbersUsedUp, Cause::BadEntry];
    assert_eq!(last.map(Cause::number), [10, 11, 12, 13]);
    assert_eq!([Cause::BadHolidays, Cause::NoBusinessDay].map(Cause::number), [14, 15]);
}
