//! The ledgers, requests, files and journals that the calls are made on.

use clearing::{CalendarRequest, Request};
use reference::calendar::{moved, HOLIDAY_LIMIT};
use reference::groups::{self, Amounts, Sent};
use reference::ledger::BILL_LIMIT;
use reference::verdict::Notification;
use reference::words::date;
use reference::workload::Workload;
use reference::{Bill, Ledger};

use crate::asked::read;

pub const KEY: u64 = 7;
/// So many groups of two records are the longest file.
pub const GROUPS: usize = 100;

pub fn account(bill: usize) -> u64 {
    123_456_780_000 + bill as u64
}

/// The bills are Bill Ready and Prepay in turn.
pub fn request(bill: usize, consumption: u64) -> Request {
    Request {
        code: *b"ZZC40",
        account: account(bill),
        key: KEY,
        product: b"BP"[bill % 2],
        billing: 20171113,
        from: 20171013,
        consumption,
        scheduled: 20171116,
    }
}

/// The same request three business days on from today.
pub fn by_calendar(bill: usize, consumption: u64) -> CalendarRequest {
    let Request { code, account, key, product, billing, from, consumption, .. } = request(bill, consumption);
    CalendarRequest { code, account, key, product, billing, from, consumption, number: 3 }
}

/// As many holidays as there may be, every second day from 20171101 on.
pub fn holidays() -> Vec<u64> {
    (0..HOLIDAY_LIMIT as isize).filter_map(|at| moved(20171101, 2 * at)).collect()
}

/// The body of the same request as a journal's entry.
pub fn request_body(bill: usize, consumption: u64) -> Vec<u8> {
    let Request { code, account, key, product, billing, from, scheduled, .. } = request(bill, consumption);
    let numbers = format!("{billing:08}{from:08}{consumption:010}{scheduled:08}");
    [&code[..], format!("{account:012}{key:04}").as_bytes(), &[product], numbers.as_bytes()].concat()
}

/// A ledger of so many open bills, each with a posted charge.
pub fn holding(bills: usize) -> Ledger {
    let mut ledger = Ledger::fresh(b"20171113", b"000000001", b"000000001").expect("a good fresh");
    for bill in 0..bills {
        ledger.request(&read(&request(bill, 85)).expect("a good request"), None).expect("taken");
    }
    for some in ledger.bills().to_vec().chunks(GROUPS) {
        let done = ledger.file(&responses(some, 4250), None).expect("a good file");
        assert_eq!(done.accepted, some.len(), "a bill without a charge");
    }
    ledger
}

/// So many open bills of one account, each due a day before the one requested before it: the last is due first.
pub fn one_account(bills: usize) -> Ledger {
    let mut ledger = Ledger::fresh(b"20171113", b"000000001", b"000000001").expect("a good fresh");
    for bill in 0..bills {
        let scheduled = moved(20171113, (bills - bill) as isize).expect("a date");
        let asked = Request { account: account(0), key: bill as u64, scheduled, ..request(bill, 85) };
        ledger.request(&read(&asked).expect("a good request"), None).expect("taken");
    }
    ledger
}

/// A file of one RSP for each of these bills.
pub fn responses(bills: &[Bill], charge: u64) -> Vec<u8> {
    let amounts = Amounts { charge, applied: 0, owed: charge, balance: 0 };
    let today = date(20171113).expect("a date");
    let sent: Vec<Sent> = bills.iter().map(|bill| groups::group(bill, Notification::Rsp, amounts, today)).collect();
    groups::file(&sent)
}

/// RSPs for the first bills of a full ledger; one that holds fewer has no such bill for the rest (BR16).
pub fn longest_file() -> Vec<u8> {
    responses(&holding(BILL_LIMIT).bills()[..GROUPS], 4000)
}

/// A fresh, a request for each bill, then files of one RSP: so many entries.
pub fn journal(bills: usize, entries: usize) -> Vec<u8> {
    let mut journal = Vec::new();
    let mut work = Workload::new(&mut journal, bills).expect("written to memory");
    work.responses((entries - bills - 1) as u64, 1).expect("written to memory");
    journal
}
