//! Document 01's cases (a) to (l), and its example.

mod common;
use common::*;
use reference::dates::Date;
use reference::journal::{self, replay};
use reference::{groups, table, Cause};

#[test]
fn a_dates() {
    assert!(Date::read(b"20000229").is_some());
    assert!(Date::read(b"19000229").is_none());
    for good in [b"19000101", b"29991231", b"20240229", b"20171130", b"20170131"] {
        assert!(Date::read(good).is_some());
    }
    for bad in [b"18991231", b"30000101", b"20170229", b"21000229", b"20171131", b"20171301", b"20170001", b"20170100"]
    {
        assert!(Date::read(bad).is_none());
    }
    assert!(
        Date::read(b"2017111").is_none() && Date::read(b"201711130").is_none() && Date::read(b"2017111 ").is_none()
    );
}

#[test]
fn days_follow_each_other() {
    let mut date = Date::read(b"19000101").unwrap();
    let mut days = 1;
    while let Some(next) = date.next() {
        assert!(next > date && Date::read(format!("{:08}", next.number()).as_bytes()) == Some(next));
        date = next;
        days += 1;
    }
    // 1100 years of 365 days and 267 leap days: 275 fourth years, less 11 hundreds, more 2000, 2400 and 2800.
    assert_eq!((date.number(), days), (29991231, 1100 * 365 + 267));
}

#[test]
fn b_and_c_scheduled_date() {
    let mut ledger = two_bills();
    ledger.close(b"20171116").unwrap();
    assert_eq!(code(&ledger, &rsp(&ledger, 0, 4250)), "");
    ledger.close(b"20171117").unwrap();
    assert_eq!(code(&ledger, &rsp(&ledger, 0, 4250)), "BR09");
}

#[test]
fn d_and_e_tiers() {
    let ledger = two_bills();
    assert_eq!(code(&ledger, &tiers(rsp(&ledger, 0, 4250), [60, 25, 0, 0])), "");
    assert_eq!(code(&ledger, &tiers(rsp(&ledger, 0, 4250), [60, 24, 0, 0])), "BR25");
}

#[test]
fn f_and_g_prepay() {
    let ledger = two_bills();
    let group = detail(rsp(&ledger, 1, 4250), 234, "0000000004000");
    assert_eq!(code(&ledger, &detail(group.clone(), 247, "0000000000250")), "");
    assert_eq!(code(&ledger, &detail(group, 247, "0000000000251")), "BR20");
}

#[test]
fn h_and_i_changes() {
    let mut ledger = two_bills();
    let (first, second) = (rsp(&ledger, 0, 4250), rsp(&ledger, 0, 4000));
    assert_eq!(file(&mut ledger, &[first]).2, 4250);
    assert_eq!(file(&mut ledger, &[second]).2, -250);
    assert_eq!(ledger.total().0, 4000);
    assert_eq!(ledger.cancel(ACCOUNT, b"0007", None).unwrap().change, -4000);
    assert_eq!(ledger.total().0, 0);
}

#[test]
fn j_duplicates() {
    let mut ledger = two_bills();
    let twins = [rsp(&ledger, 0, 4250), rsp(&ledger, 0, 4000)];
    assert_eq!(codes(&ledger, &twins), ["BR14", "BR14"]);
    let (accepted, rejected, change, _) = file(&mut ledger, &twins);
    assert_eq!((accepted, rejected, change), (0, 2, 0));
}

#[test]
fn k_supplement() {
    let mut ledger = two_issued();
    let group = sup(&ledger, 0, 4250);
    assert_eq!(ledger.bills()[0].sequence, 1);
    let (accepted, _, change, _) = file(&mut ledger, &[group]);
    assert_eq!((accepted, change), (1, 4250));
    assert_eq!((ledger.bills()[0].sequence, ledger.bills()[0].requests, ledger.bills()[0].tracking), (2, 1, 1));
}

#[test]
fn l_bills() {
    let mut ledger = fresh();
    for key in 0..128 {
        let mut body = *BILL_READY;
        body[17..21].copy_from_slice(format!("{key:04}").as_bytes());
        assert!(request(&mut ledger, &body).is_ok());
    }
    let mut body = *BILL_READY;
    body[17..21].copy_from_slice(b"0128");
    assert_eq!(request(&mut ledger, &body), Err(Cause::LedgerFull));
    // A cancelled bill keeps its place among the 128.
    ledger.cancel(ACCOUNT, b"0000", None).unwrap();
    assert_eq!(request(&mut ledger, &body), Err(Cause::LedgerFull));
}

#[test]
fn the_example_table() {
    let mut bytes = groups::entry(journal::FRESH, b"20171113000000001000000001");
    bytes.extend(groups::entry(journal::REQUEST, BILL_READY));
    let group = rsp(&two_bills(), 0, 4250);
    bytes.extend(groups::entry(journal::FILE, &groups::file(&[group])));
    let expected = "account,key,code,kind,seq,ccf,charge,applied,owed,state\n\
        123456780019,0007,ZZC40,B,001,0000000085,0000000004250,0000000000000,0000000004250,O\n\
        total,0000000000004250\n";
    assert_eq!(String::from_utf8(table::table(&replay(&bytes[..]).unwrap())).unwrap(), expected);
}

#[test]
fn lookups() {
    let mut ledger = two_issued();
    assert_eq!(ledger.open_bill(ACCOUNT), Err(Cause::NoSuchBill));
    let mut body = with_consumption(PREPAY, 90);
    body[48..].copy_from_slice(b"20171120");
    request(&mut ledger, &body).unwrap();
    assert_eq!(ledger.open_bill(ACCOUNT), Ok(1));
    assert_eq!(ledger.open_bill(b"999999999999"), Err(Cause::NoSuchBill));
    assert_eq!(ledger.open_bill(b"12345678001 "), Err(Cause::BadField));
    let group = rsp(&ledger, 1, 4250);
    file(&mut ledger, &[group]);
    let figures =
        |key: &[u8]| ledger.amounts(ACCOUNT, key).map(|(charge, applied, owed)| (charge.0, applied.0, owed.0));
    assert_eq!(figures(b"0008"), Ok((4250, 2125, 2125)));
    assert_eq!(figures(b"0007"), Ok((0, 0, 0)));
    assert_eq!(figures(b"0009"), Err(Cause::NoSuchBill));
    assert_eq!(figures(b"009"), Err(Cause::BadField));
}
