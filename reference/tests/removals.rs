//! Paper 2: removals, and SUPs that come later than a year after the Billing Date or 60 days after the removal date.

mod common;
use common::*;
use reference::calendar::moved;
use reference::dates::Date;
use reference::generator::days::some_start;
use reference::groups;
use reference::history::{Call, History};
use reference::prng::Prng;
use reference::trace::trace;
use reference::workload::Workload;
use reference::{Cause, Ledger};

/// The Bill Ready bill billed on a date, issued, and removed on another if there is one; then it is this day.
fn on(billing: u64, removal: Option<u64>, today: u64) -> Ledger {
    let mut ledger = Ledger::fresh(b"19000101", b"000000001", b"000000001").unwrap();
    let mut body = *BILL_READY;
    body[22..30].copy_from_slice(billing.to_string().as_bytes());
    body[48..].copy_from_slice(b"19000101");
    request(&mut ledger, &body).unwrap();
    removal.iter().for_each(|date| ledger.removal(ACCOUNT, date.to_string().as_bytes()).unwrap());
    ledger.close(today.to_string().as_bytes()).unwrap();
    ledger
}

/// What a SUP gets then.
fn sup_code(billing: u64, removal: Option<u64>, today: u64) -> String {
    let ledger = on(billing, removal, today);
    code(&ledger, &sup(&ledger, 0, 4250))
}

#[test]
fn the_anniversary() {
    for (billing, last, after) in [
        (20171113, 20181113, 20181114),
        (20171231, 20181231, 20190101),
        (20180101, 20190101, 20190102),
        (20160228, 20170228, 20170301),
        (20160229, 20170228, 20170301),
        (20160301, 20170301, 20170302),
        (20150228, 20160228, 20160229),
        (20150301, 20160301, 20160302),
        (20000229, 20010228, 20010301),
        (19990228, 20000228, 20000229),
        (20990228, 21000228, 21000301),
        (24000229, 24010228, 24010301),
        (29960229, 29970228, 29970301),
        (19000101, 19010101, 19010102),
        (29981230, 29991230, 29991231),
    ] {
        assert_eq!(sup_code(billing, None, last), "", "{billing}");
        assert_eq!(sup_code(billing, None, after), "BR12", "{billing}");
        assert_eq!(sup_code(billing, None, 29991231), "BR12", "{billing}");
        assert_eq!(sup_code(billing, None, 19000102), "", "{billing}");
    }
    for billing in [29981231, 29990101, 29990228, 29991231] {
        assert_eq!(sup_code(billing, None, 29991231), "", "{billing}");
    }
}

#[test]
fn day_sixty() {
    for (removal, last, after) in [
        (20171113, 20180112, 20180113),
        (20161231, 20170301, 20170302),
        (20151231, 20160229, 20160301),
        (20160101, 20160301, 20160302),
        (20170101, 20170302, 20170303),
        (19991231, 20000229, 20000301),
        (20991231, 21000301, 21000302),
        (20170701, 20170830, 20170831),
        (19000101, 19000302, 19000303),
        (29991031, 29991230, 29991231),
    ] {
        // Billed far on, so that the year is not over.
        let removed = |today: u64| sup_code(29991231, Some(removal), today);
        assert_eq!((removed(last), removed(after)), (String::new(), "BR13".into()), "{removal}");
        assert_eq!((removed(19000102), removed(29991231)), (String::new(), "BR13".into()), "{removal}");
    }
    for removal in [29991101, 29991102, 29991231] {
        assert_eq!(sup_code(29991231, Some(removal), 29991231), "", "{removal}");
    }
}

#[test]
fn order_of_the_lines() {
    // Over a year and over 60 days, the sequence wrong too.
    let late = on(20160101, Some(20160101), 20171113);
    let wrong = |ledger: &Ledger| detail(sup(ledger, 0, 4250), 54, "001");
    assert_eq!(code(&late, &wrong(&late)), "BR12");
    let removed = on(20171113, Some(20160101), 20171113);
    assert_eq!(code(&removed, &wrong(&removed)), "BR13");
    assert_eq!(code(&removed, &detail(sup(&removed, 0, 4250), 57, "          ")), "BR13");
    assert_eq!(code(&removed, &both(sup(&removed, 0, 4250), 3, "ZZC41")), "BR07");
    // The group's own Billing Date is not read.
    assert_eq!(code(&late, &detail(sup(&late, 0, 4250), 46, "20171113")), "BR12");
    let in_time = on(20171113, None, 20171113);
    assert_eq!(code(&in_time, &detail(sup(&in_time, 0, 4250), 46, "19000101")), "");
    let mut cancelled = late.clone();
    cancelled.cancel(ACCOUNT, b"0007", None).unwrap();
    assert_eq!(code(&cancelled, &sup(&cancelled, 0, 4250)), "BR09");
    // Opened again by a request with the old Billing Date; the removal date stays.
    let mut open = late;
    let mut body = with_consumption(BILL_READY, 90);
    body[22..30].copy_from_slice(b"20160101");
    request(&mut open, &body).unwrap();
    assert_eq!(code(&open, &sup(&open, 0, 4250)), "BR11");
    assert_eq!(code(&open, &rsp(&open, 0, 4250)), "", "an RSP is read by neither");
    open.close(b"20171117").unwrap();
    assert_eq!(code(&open, &sup(&open, 0, 4250)), "BR12");
}

#[test]
fn the_latest_request_counts() {
    let mut ledger = on(20160101, None, 20171113);
    request(&mut ledger, &with_consumption(BILL_READY, 90)).unwrap();
    ledger.close(b"20181113").unwrap();
    assert_eq!(code(&ledger, &sup(&ledger, 0, 4250)), "");
    let mut body = with_consumption(BILL_READY, 91);
    body[22..30].copy_from_slice(b"20160101");
    body[48..].copy_from_slice(b"20181113");
    request(&mut ledger, &body).unwrap();
    ledger.close(b"20181114").unwrap();
    assert_eq!(code(&ledger, &sup(&ledger, 0, 4250)), "BR12");
}

fn removal_dates(ledger: &Ledger) -> Vec<Option<u32>> {
    ledger.bills().iter().map(|bill| bill.removal_date.map(Date::number)).collect()
}

#[test]
fn all_bills_of_the_account() {
    let mut ledger = two_bills();
    let key = |body: &[u8; 56], key: &[u8; 4]| {
        let mut body = *body;
        body[17..21].copy_from_slice(key);
        body
    };
    let mut other = *BILL_READY;
    other[5..17].copy_from_slice(b"123456780018");
    request(&mut ledger, &other).unwrap();
    ledger.cancel(ACCOUNT, b"0008", None).unwrap();
    ledger.close(b"20171117").unwrap();
    let mut open = key(BILL_READY, b"0009");
    open[48..].copy_from_slice(b"20171120");
    request(&mut ledger, &open).unwrap();
    // An issued one, a cancelled one, another account's, an open one.
    let (before, total) = (ledger.clone(), ledger.total());
    ledger.removal(ACCOUNT, b"20171130").unwrap();
    assert_eq!(removal_dates(&ledger), [Some(20171130), Some(20171130), None, Some(20171130)]);
    assert_eq!((ledger.today(), ledger.next_numbers(), ledger.total()), (before.today(), before.next_numbers(), total));
    ledger.removal(ACCOUNT, b"19000101").unwrap();
    ledger.removal(b"123456780018", b"29991231").unwrap();
    assert_eq!(removal_dates(&ledger), [Some(19000101), Some(19000101), Some(29991231), Some(19000101)]);
    let mut new = key(BILL_READY, b"0010");
    new[48..].copy_from_slice(b"20171120");
    request(&mut ledger, &new).unwrap();
    request(&mut ledger, &with_consumption(&new, 86)).unwrap();
    request(&mut ledger, &with_consumption(&open, 86)).unwrap();
    assert_eq!(removal_dates(&ledger)[3..], [Some(19000101), None], "a renewed bill keeps it, a new one has none");
}

#[test]
fn causes() {
    let ledger = two_bills();
    for (account, date, cause) in [
        (&b"12345678001X"[..], &b"20171113"[..], Cause::BadField),
        (b"1234567800190", b"20171113", Cause::BadField),
        (b"12345678001", b"20171113", Cause::BadField),
        (b"123456780019", b"20171131", Cause::BadField),
        (b"123456780019", b"00000000", Cause::BadField),
        (b"123456780019", b"2017111 ", Cause::BadField),
        (b"123456780018", b"20170229", Cause::BadField),
        (b"123456780018", b"20171113", Cause::NoSuchBill),
    ] {
        let mut after = ledger.clone();
        assert_eq!(after.removal(account, date), Err(cause));
        assert_eq!(after, ledger);
    }
    assert_eq!(fresh().removal(ACCOUNT, b"20171113"), Err(Cause::NoSuchBill));
    // Numbers that are used up are none of its causes.
    let mut last = Ledger::fresh(b"20171113", b"999999999", b"999999999").unwrap();
    request(&mut last, BILL_READY).unwrap();
    assert_eq!(last.removal(ACCOUNT, b"20171113"), Ok(()));
}

#[test]
fn journals_for_measuring() {
    let (mut removals, mut late) = (Vec::new(), Vec::new());
    Workload::new(&mut removals, 128).unwrap().removals(300).unwrap();
    Workload::new(&mut late, 0).unwrap().late_supplements(200).unwrap();
    let count = |journal: &[u8], words: &str| {
        let mut lines = Vec::new();
        trace(journal, &mut lines).unwrap();
        String::from_utf8(lines).unwrap().lines().filter(|line| line.contains(words)).count()
    };
    assert_eq!([",removal,00,", ",SUP,"].map(|words| count(&removals, words)), [300, 0]);
    assert_eq!(
        [",removal,00,", ",SUP,BR13", ",SUP,BR12", ",SUP,"].map(|words| count(&late, words)),
        [128, 100, 100, 200]
    );
}

/// The ledger's code and the history's for one bill, on the days about each of its last days.
fn both_codes(billing: u64, removal: u64) {
    let mut ledger = Ledger::fresh(b"19000101", b"000000001", b"000000001").unwrap();
    let mut history = History::fresh(b"19000101000000001000000001").unwrap();
    let mut body = *BILL_READY;
    body[22..30].copy_from_slice(billing.to_string().as_bytes());
    body[48..].copy_from_slice(b"19000101");
    request(&mut ledger, &body).unwrap();
    let removed: [u8; 20] = [&ACCOUNT[..], removal.to_string().as_bytes()].concat().try_into().unwrap();
    ledger.removal(&removed[..12], &removed[12..]).unwrap();
    assert_eq!((history.call(Call::Request(&body), 642), history.call(Call::Removal(&removed), 0)), (None, None));
    let about = |date: u64, days: isize| (days - 2..days + 3).filter_map(move |days| moved(date, days));
    let mut days: Vec<u64> = about(removal, 60).chain(about(billing, 365)).filter(|day| *day > 19000101).collect();
    days.sort();
    days.dedup();
    for day in days {
        let today: [u8; 8] = day.to_string().into_bytes().try_into().unwrap();
        ledger.close(&today).unwrap();
        assert_eq!(history.call(Call::Close(&today), 0), None);
        let group = sup(&ledger, 0, 4250);
        assert_eq!(history.call(Call::File(&groups::file(std::slice::from_ref(&group))), 642), None);
        let past = history.verdicts()[0].map_or(String::new(), |code| format!("BR{code:02}"));
        assert_eq!(code(&ledger, &group), past, "billed {billing}, removed {removal}, today {day}");
        file(&mut ledger, &[group]);
    }
}

#[test]
fn ledger_and_history() {
    let mut rng = Prng::new(2);
    for _ in 0..20_000 {
        let billing = some_start(&mut rng);
        both_codes(billing, moved(billing, 300 + rng.below(10) as isize).unwrap_or(billing));
        both_codes(billing, some_start(&mut rng));
    }
}
