//! Every BR code at least once, under RSP and SUP where both can have it, and the order of the lines.

mod common;
use common::*;
use reference::groups::Sent;
use reference::Ledger;

/// A way to spoil a group, and the code it must then get.
type Row = (fn(Sent) -> Sent, &'static str);

fn try_rows(ledger: &Ledger, good: &Sent, rows: &[Row]) {
    assert_eq!(code(ledger, good), "");
    for (number, (spoil, expected)) in rows.iter().enumerate() {
        assert_eq!(code(ledger, &spoil(good.clone())), *expected, "row {number}");
    }
}

const BOTH_KINDS: &[Row] = &[
    (|g| Sent { details: vec![], ..g }, "BR17"),
    (|g| Sent { details: vec![g.details[0]; 2], ..g }, "BR17"),
    (|g| header(g, 59, "00"), "BR17"),
    (|g| header(g, 59, " 1"), "BR17"),
    (|g| both(g, 1, "35"), "BR17"),
    (|g| header(g, 1, "35"), "BR17"),
    (|g| detail(g, 3, "ZZC41"), "BR17"),
    (|g| detail(g, 8, "999999999999"), "BR17"),
    (|g| detail(g, 20, "999999999"), "BR17"),
    (|g| detail(g, 31, "XXX"), "BR17"),
    (|g| both(g, 8, "12345678001 "), "BR17"),
    (|g| detail(g, 42, "000A"), "BR17"),
    (|g| detail(both(g, 31, "XXX"), 42, "000A"), "BR17"),
    (|g| both(g, 31, "XXX"), "BR19"),
    (|g| both(g, 31, "rsp"), "BR19"),
    (|g| both(g, 31, "BIL"), "BR19"),
    (|g| detail(g, 42, "0009"), "BR16"),
    (|g| both(g, 8, "123456780018"), "BR16"),
    (|g| both(g, 3, "ZZC41"), "BR07"),
    (|g| detail(both(g, 3, "ZZC41"), 42, "0009"), "BR16"),
    (|g| detail(g, 54, "002"), "BR05"),
    (|g| detail(g, 54, "   "), "BR05"),
    (|g| detail(detail(g, 54, "002"), 57, "          "), "BR05"),
    (|g| detail(g, 57, "        85"), "BR08"),
    (|g| detail(g, 57, "0000000086"), "BR06"),
    (|g| detail(detail(g, 57, "0000000086"), 67, "             "), "BR06"),
    (|g| detail(g, 67, "000000000425X"), "BR10"),
    (|g| detail(detail(g, 67, "000000000425X"), 88, "       "), "BR10"),
    (|g| detail(g, 88, "000000."), "BR24"),
    (|g| detail(detail(g, 88, "000000."), 95, "000000000X"), "BR24"),
    (|g| detail(g, 95, "00000000 5"), "BR25"),
    (|g| detail(g, 185, "          "), "BR25"),
    (|g| tiers(g, [9_999_999_999, 86, 0, 0]), "BR25"),
    (|g| detail(tiers(g, [84, 0, 0, 0]), 105, "             "), "BR25"),
    (|g| detail(g, 105, "0000000004249"), "BR26"),
    (|g| detail(g, 195, "000000000000-"), "BR26"),
    (|g| detail(detail(g, 105, "9999999999999"), 135, "0000000004251"), "BR26"),
    // Fields that no line reads.
    (|g| detail(header(g, 34, "        "), 34, "no date!"), ""),
    (|g| header(header(g, 42, "any text."), 51, "any text"), ""),
    (|g| detail(detail(g, 46, "any text"), 80, "any text"), ""),
    (|g| detail(g, 208, "text in previous fields ok"), ""),
    (|g| detail(detail(detail(g, 118, "any txt"), 148, "any txt"), 178, "any txt"), ""),
    (|g| detail(header(g, 74, "any text"), 260, "any text"), ""),
];

const PREPAY_ONLY: &[Row] = &[
    (|g| header(g, 61, "             "), "BR21"),
    (|g| detail(header(g, 61, "           17"), 234, "             "), "BR21"),
    (|g| detail(g, 234, "000000000400X"), "BR22"),
    (|g| detail(detail(g, 234, "000000000400X"), 247, "             "), "BR22"),
    (|g| detail(g, 247, "            0"), "BR23"),
    (|g| detail(detail(g, 247, "            0"), 88, "       "), "BR23"),
    (|g| detail(g, 247, "0000000002126"), "BR20"),
    (|g| detail(detail(g, 234, "9999999999999"), 247, "0000000004251"), "BR20"),
    (|g| detail(detail(g, 247, "0000000002126"), 105, "0000000004249"), "BR26"),
];

const BILL_READY_ONLY: &[Row] =
    &[(|g| header(g, 61, "any text here"), ""), (|g| detail(g, 234, "any text here, any text he"), "")];

#[test]
fn rsp_codes() {
    let ledger = two_bills();
    for place in [0, 1] {
        let good = rsp(&ledger, place, 4250);
        try_rows(&ledger, &good, BOTH_KINDS);
        try_rows(&ledger, &good, if place == 0 { BILL_READY_ONLY } else { PREPAY_ONLY });
        assert_eq!(code(&ledger, &both(good.clone(), 20, "000000009")), "BR01");
        assert_eq!(code(&ledger, &detail(both(good.clone(), 20, "        1"), 54, "002")), "BR01");
        assert_eq!(code(&ledger, &detail(good, 54, "000")), "BR05");
    }
}

#[test]
fn sup_codes() {
    let ledger = two_issued();
    for place in [0, 1] {
        let good = sup(&ledger, place, 4250);
        try_rows(&ledger, &good, BOTH_KINDS);
        try_rows(&ledger, &good, if place == 0 { BILL_READY_ONLY } else { PREPAY_ONLY });
        // Its Tracking ID is read by line 1 only.
        assert_eq!(code(&ledger, &both(good.clone(), 20, "any text.")), "");
        assert_eq!(code(&ledger, &detail(good, 54, "001")), "BR05");
    }
}

#[test]
fn open_issued_cancelled() {
    let (open, issued) = (two_bills(), two_issued());
    assert_eq!(code(&open, &sup(&open, 0, 1)), "BR11");
    assert_eq!(code(&issued, &rsp(&issued, 0, 1)), "BR09");
    let mut cancelled = two_bills();
    cancelled.cancel(ACCOUNT, b"0007", None).unwrap();
    assert_eq!(code(&cancelled, &rsp(&cancelled, 0, 1)), "BR09");
    assert_eq!(code(&cancelled, &sup(&cancelled, 0, 1)), "BR09");
    assert_eq!(code(&cancelled, &detail(sup(&cancelled, 0, 1), 54, "001")), "BR09");
}

#[test]
fn a_sup_at_999() {
    let mut ledger = fresh();
    for count in 1..=999 {
        request(&mut ledger, &with_consumption(BILL_READY, count)).unwrap();
    }
    assert_eq!(code(&ledger, &rsp(&ledger, 0, 4250)), "");
    ledger.close(b"20171117").unwrap();
    assert_eq!(code(&ledger, &sup(&ledger, 0, 4250)), "BR05");
}

#[test]
fn duplicates() {
    let ledger = two_bills();
    let (one, other) = (rsp(&ledger, 0, 4250), rsp(&ledger, 1, 4250));
    let three = [one.clone(), other.clone(), one.clone(), one.clone()];
    assert_eq!(codes(&ledger, &three), ["BR14", "", "BR14", "BR14"]);
    // A faulty twin spoils a good group, unless lines 1 or 2 stop it.
    assert_eq!(codes(&ledger, &[one.clone(), both(one.clone(), 3, "ZZC41")]), ["BR14", "BR14"]);
    assert_eq!(codes(&ledger, &[one.clone(), detail(one.clone(), 57, "XXXXXXXXXX")]), ["BR14", "BR14"]);
    assert_eq!(codes(&ledger, &[header(one.clone(), 59, "02"), one.clone()]), ["BR17", ""]);
    assert_eq!(codes(&ledger, &[both(one.clone(), 31, "XXX"), one.clone()]), ["BR19", ""]);
    // An RSP and a SUP of one bill are no duplicates; nor are two bills of one account.
    assert_eq!(codes(&ledger, &[one.clone(), sup(&ledger, 0, 1)]), ["", "BR11"]);
    // Line 3 comes before line 4: duplicates of a bill that is not there.
    let stranger = detail(one, 42, "0009");
    assert_eq!(codes(&ledger, &[stranger.clone(), stranger, other]), ["BR14", "BR14", ""]);
}

#[test]
fn later_files_replace() {
    let mut ledger = two_bills();
    for charge in [4250, 4000, 5000] {
        let group = rsp(&ledger, 0, charge);
        assert_eq!(file(&mut ledger, &[group]).0, 1);
        assert_eq!((ledger.total().0, ledger.bills()[0].sequence), (charge, 1));
    }
    let before = ledger.next_numbers();
    let rejected = sup(&ledger, 0, 1);
    file(&mut ledger, &[rejected]);
    assert_eq!(ledger.next_numbers(), (before.0, before.1 + 1), "a rejected SUP takes no Tracking ID");
}
