//! The trace: a line for each entry and each group of a file, and how it ends.

mod common;

use common::{both, detail, header, rsp, sup, two_bills, two_issued, ACCOUNT, BILL_READY, PREPAY};
use reference::groups::{self, entry, Sent};
use reference::journal::{CANCEL, CLOSE, FILE, FRESH, REMOVAL, REQUEST};
use reference::trace::trace;

const FIRST: &[u8; 26] = b"20171113000000001000000001";
const FRESH_LINE: &str = "0000000001,fresh,00,00000000000000000,000,000,000\n";
const REQUEST_LINE: &str = "0000000002,request,00,00000000000000000,000,000,000\n";

fn traced(entries: &[Vec<u8>]) -> String {
    let mut lines = Vec::new();
    trace(&entries.concat()[..], &mut lines).unwrap();
    String::from_utf8(lines).unwrap()
}

/// A fresh, then these entries; returns the lines after fresh's.
fn after_fresh(entries: &[Vec<u8>]) -> String {
    let mut all = vec![entry(FRESH, FIRST)];
    all.extend_from_slice(entries);
    traced(&all).strip_prefix(FRESH_LINE).unwrap().to_string()
}

/// A fresh, the requests of two bills, then these entries; returns the lines after the requests'.
fn after_two_bills(entries: &[Vec<u8>]) -> String {
    let mut all = vec![entry(REQUEST, BILL_READY), entry(REQUEST, PREPAY)];
    all.extend_from_slice(entries);
    let lines = after_fresh(&all);
    let second = REQUEST_LINE.replace("02,", "03,");
    lines.strip_prefix(&format!("{REQUEST_LINE}{second}")).unwrap().to_string()
}

fn file(groups: &[Sent]) -> Vec<u8> {
    entry(FILE, &groups::file(groups))
}

/// A line without figures.
fn plain(number: usize, call: &str, cause: u8) -> String {
    format!("{number:010},{call},{cause:02},00000000000000000,000,000,000\n")
}

#[test]
fn the_example() {
    let mut ledger = common::fresh();
    common::request(&mut ledger, BILL_READY).unwrap();
    let lines = after_fresh(&[entry(REQUEST, BILL_READY), file(&[rsp(&ledger, 0, 4250)])]);
    let file = "0000000003,file,00,00000000000004250,001,000,000\ngroup,000000002,123456780019,0007,RSP,ACF\n";
    assert_eq!(lines, format!("{REQUEST_LINE}{file}"));
}

#[test]
fn changes_and_closes() {
    let ledger = two_bills();
    let cancel = entry(CANCEL, b"1234567800190008");
    let lines = after_two_bills(&[
        file(&[rsp(&ledger, 0, 9_999_999_999_999), rsp(&ledger, 1, 9_999_999_999_999)]),
        file(&[rsp(&ledger, 1, 4000)]),
        cancel,
        entry(CLOSE, b"20171116"),
        entry(CLOSE, b"20171117"),
        entry(FILE, b""),
    ]);
    let wanted = "\
        0000000004,file,00,00019999999999998,002,000,000\n\
        group,000000003,123456780019,0007,RSP,ACF\n\
        group,000000004,123456780019,0008,RSP,ACF\n\
        0000000005,file,00,-0009999999995999,001,000,000\n\
        group,000000005,123456780019,0008,RSP,ACF\n\
        0000000006,cancel,00,-0000000000004000,000,000,000\n\
        0000000007,close,00,00000000000000000,000,000,000\n\
        0000000008,close,00,00000000000000000,000,000,001\n\
        0000000009,file,00,00000000000000000,000,000,000\n";
    assert_eq!(lines, wanted);
}

#[test]
fn refused_calls() {
    let changed = |body: &[u8; 56], at: usize, field: &str| {
        let mut body = *body;
        body[at..at + field.len()].copy_from_slice(field.as_bytes());
        entry(REQUEST, &body)
    };
    let (account, unknown) = (ACCOUNT.as_slice(), b"0009".as_slice());
    let calls = [
        (changed(BILL_READY, 5, "12345678001X"), "request", 2),
        (changed(BILL_READY, 48, "20171112"), "request", 9),
        (changed(BILL_READY, 0, "ZZC41"), "request", 6),
        (entry(REQUEST, BILL_READY), "request", 7),
        (entry(FILE, b" "), "file", 11),
        (entry(CANCEL, b"12345678001900 7"), "cancel", 2),
        (entry(CANCEL, &[account, unknown].concat()), "cancel", 4),
        (entry(CLOSE, b"20171131"), "close", 2),
        (entry(CLOSE, b"20171113"), "close", 10),
        (entry(REMOVAL, b"12345678001X20171113"), "removal", 2),
        (entry(REMOVAL, b"12345678001820170229"), "removal", 2),
        (entry(REMOVAL, b"12345678001820171113"), "removal", 4),
    ];
    let entries: Vec<Vec<u8>> = calls.iter().map(|call| call.0.clone()).collect();
    let wanted: String = calls.iter().zip(4..).map(|(call, number)| plain(number, call.1, call.2)).collect();
    assert_eq!(after_two_bills(&entries), wanted);

    let cancel = entry(CANCEL, b"1234567800190007");
    let lines = after_two_bills(&[cancel.clone(), cancel, entry(REQUEST, BILL_READY)]);
    assert_eq!(lines, plain(4, "cancel", 0) + &plain(5, "cancel", 5) + &plain(6, "request", 5));
}

#[test]
fn refused_for_room_and_numbers() {
    let new = |key: usize| {
        entry(REQUEST, format!("ZZC40123456780019{key:04}{}", "B2017111320171013000000008520171116").as_bytes())
    };
    let lines = after_fresh(&(0..129).map(new).collect::<Vec<_>>());
    assert!(lines.ends_with(&(plain(129, "request", 0) + &plain(130, "request", 3))));

    let renewed = |turn: u64| entry(REQUEST, &common::with_consumption(BILL_READY, 100 + turn));
    let lines = after_fresh(&(0..1000).map(renewed).collect::<Vec<_>>());
    assert!(lines.ends_with(&(plain(1000, "request", 0) + &plain(1001, "request", 8))));

    // The last Confirmation Number goes to the first request.
    let first = entry(FRESH, b"20171113000000001999999999");
    let calls = [file(&[rsp(&two_bills(), 0, 1)]), entry(CANCEL, b"1234567800190007"), entry(REQUEST, PREPAY)];
    let lines = traced(&[vec![first, entry(REQUEST, BILL_READY)], calls.to_vec()].concat());
    let refused = plain(3, "file", 12) + &plain(4, "cancel", 12) + &plain(5, "request", 12);
    assert_eq!(lines, format!("{FRESH_LINE}{REQUEST_LINE}{refused}"));
}

#[test]
fn rejected_groups() {
    let ledger = two_bills();
    let good = || rsp(&ledger, 0, 4250);
    let without_detail = Sent { details: vec![], ..good() };
    let mut two_details = detail(good(), 42, "0042");
    two_details.details.push(good().details[0]);
    let groups = [
        without_detail,
        two_details,
        both(good(), 31, "XXX"),
        both(good(), 8, "12345,780019"),
        detail(good(), 42, "0,07"),
        header(good(), 31, ",,,"),
        both(good(), 31, "R,P"),
        detail(good(), 42, "9999"),
        detail(good(), 67, "000000000425X"),
        sup(&ledger, 1, 4250),
    ];
    let wanted = "\
        0000000004,file,00,00000000000000000,000,010,000\n\
        group,000000003,123456780019,    ,RSP,BR17\n\
        group,000000004,123456780019,0042,RSP,BR17\n\
        group,000000005,123456780019,0007,XXX,BR19\n\
        group,000000006,12345,780019,0007,RSP,BR17\n\
        group,000000007,123456780019,0,07,RSP,BR17\n\
        group,000000008,123456780019,0007,,,,,BR17\n\
        group,000000009,123456780019,0007,R,P,BR19\n\
        group,000000010,123456780019,9999,RSP,BR16\n\
        group,000000011,123456780019,0007,RSP,BR10\n\
        group,000000012,123456780019,0008,SUP,BR11\n";
    assert_eq!(after_two_bills(&[file(&groups)]), wanted);

    let twins = "\
        0000000004,file,00,00000000000000000,000,002,000\n\
        group,000000003,123456780019,0007,RSP,BR14\n\
        group,000000004,123456780019,0007,RSP,BR14\n";
    assert_eq!(after_two_bills(&[file(&[good(), good()])]), twins);
}

#[test]
fn both_outcomes_in_one_file() {
    let issued = two_issued();
    let groups = [sup(&issued, 0, 300), rsp(&issued, 1, 100), sup(&issued, 1, 50)];
    let wanted = "\
        0000000004,close,00,00000000000000000,000,000,002\n\
        0000000005,file,00,00000000000000350,002,001,000\n\
        group,000000003,123456780019,0007,SUP,ACF\n\
        group,000000004,123456780019,0008,RSP,BR09\n\
        group,000000005,123456780019,0008,SUP,ACF\n";
    assert_eq!(after_two_bills(&[entry(CLOSE, b"20171117"), file(&groups)]), wanted);
}

#[test]
fn late_supplements() {
    let issued = two_issued();
    let mut prepay = sup(&issued, 1, 50);
    prepay.details[0][79..87].copy_from_slice(b"        ");
    let lines = after_two_bills(&[
        entry(CLOSE, b"20181113"),
        entry(REMOVAL, b"12345678001920180914"),
        file(&[sup(&issued, 0, 300)]),
        entry(REMOVAL, b"12345678001920180913"),
        file(&[sup(&issued, 0, 200), prepay.clone()]),
        entry(CLOSE, b"20181114"),
        file(&[sup(&issued, 0, 200), prepay]),
    ]);
    let wanted = "\
        0000000004,close,00,00000000000000000,000,000,002\n\
        0000000005,removal,00,00000000000000000,000,000,000\n\
        0000000006,file,00,00000000000000300,001,000,000\n\
        group,000000003,123456780019,0007,SUP,ACF\n\
        0000000007,removal,00,00000000000000000,000,000,000\n\
        0000000008,file,00,00000000000000000,000,002,000\n\
        group,000000004,123456780019,0007,SUP,BR13\n\
        group,000000005,123456780019,0008,SUP,BR13\n\
        0000000009,close,00,00000000000000000,000,000,000\n\
        0000000010,file,00,00000000000000000,000,002,000\n\
        group,000000006,123456780019,0007,SUP,BR12\n\
        group,000000007,123456780019,0008,SUP,BR12\n";
    assert_eq!(lines, wanted);
}

#[test]
fn bad_starts() {
    let mut long = entry(FRESH, FIRST);
    long[2] = 27;
    for journal in [
        vec![],
        vec![0],
        entry(FRESH, FIRST)[..28].to_vec(),
        entry(FRESH, b"20170229000000001000000001"),
        entry(FRESH, b"20171113000000000000000001"),
        entry(FRESH, b"2017111300000000100000000X"),
        entry(REQUEST, BILL_READY),
        entry(FILE, b""),
        entry(5, b""),
        entry(6, b""),
        entry(REMOVAL, b"12345678001920171113"),
        long,
    ] {
        assert_eq!(traced(&[journal.clone(), entry(CLOSE, b"20171120")]), "stopped,13\n", "{journal:?}");
        assert_eq!(traced(&[journal]), "stopped,13\n");
    }
    assert_eq!(traced(&[entry(FRESH, FIRST)]), FRESH_LINE);
}

#[test]
fn bad_ends() {
    for bad in [
        vec![4],
        vec![4, 0],
        entry(CLOSE, b"20171120")[..10].to_vec(),
        entry(FRESH, FIRST),
        entry(5, b"20171120"),
        entry(6, b"12345678001920171120"),
        entry(REMOVAL, b"12345678001920171120")[..10].to_vec(),
        entry(REMOVAL, b"123456780019201711200"),
        entry(REMOVAL, b"1234567800192017112"),
        entry(b'4', b"20171120"),
        entry(CLOSE, b"201711200"),
        entry(CLOSE, b"2017112"),
        entry(REQUEST, &BILL_READY[..55]),
        entry(FILE, &[b' '; 64_201]),
        vec![2, 1, 65],
    ] {
        let lines = after_fresh(&[entry(REQUEST, BILL_READY), bad.clone()]);
        assert_eq!(lines, format!("{REQUEST_LINE}stopped,13\n"), "{:?}", &bad[..bad.len().min(3)]);
        // Nothing after a bad entry is read; one that is cut short would take it for its own end.
        if bad.len() > 11 {
            assert_eq!(after_fresh(&[entry(REQUEST, BILL_READY), bad, entry(CLOSE, b"20171120")]), lines);
        }
    }
}
