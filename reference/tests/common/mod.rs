//! What the tests share: a ledger with the example's bill, and groups for its bills.
#![allow(dead_code)] // each test file uses its own part

use reference::file::{number, text, RECORD_LENGTH};
use reference::groups::{self, Amounts, Sent};
use reference::verdict::Notification;
use reference::{Cause, Ledger, Request};

pub const ACCOUNT: &[u8; 12] = b"123456780019";
pub const BILL_READY: &[u8; 56] = b"ZZC401234567800190007B2017111320171013000000008520171116";
pub const PREPAY: &[u8; 56] = b"ZZC401234567800190008P2017111320171013000000008520171116";

pub fn fresh() -> Ledger {
    Ledger::fresh(b"20171113", b"000000001", b"000000001").unwrap()
}

/// The Bill Ready bill 0007 (Tracking ID 1) and the Prepay bill 0008 (Tracking ID 2), both open until 20171116.
pub fn two_bills() -> Ledger {
    let mut ledger = fresh();
    request(&mut ledger, BILL_READY).unwrap();
    request(&mut ledger, PREPAY).unwrap();
    ledger
}

/// The same bills, issued.
pub fn two_issued() -> Ledger {
    let mut ledger = two_bills();
    assert_eq!(ledger.close(b"20171117"), Ok(2));
    ledger
}

pub fn request(ledger: &mut Ledger, body: &[u8; 56]) -> Result<Vec<u8>, Cause> {
    let mut out = vec![0; 642];
    ledger.request(&Request::read(body)?, Some(&mut out))?;
    Ok(out)
}

/// A request's body with the consumption replaced.
pub fn with_consumption(body: &[u8; 56], consumption: u64) -> [u8; 56] {
    let mut changed = *body;
    changed[38..48].copy_from_slice(format!("{consumption:010}").as_bytes());
    changed
}

pub fn rsp(ledger: &Ledger, place: usize, charge: u64) -> Sent {
    sent(ledger, place, Notification::Rsp, charge)
}

pub fn sup(ledger: &Ledger, place: usize, charge: u64) -> Sent {
    sent(ledger, place, Notification::Sup, charge)
}

fn sent(ledger: &Ledger, place: usize, notification: Notification, charge: u64) -> Sent {
    let applied = charge / 2;
    let amounts = Amounts { charge, applied, owed: charge - applied, balance: 17 };
    groups::group(&ledger.bills()[place], notification, amounts, ledger.today())
}

/// A file's answer: accepted, rejected, change, and its notices.
pub fn file(ledger: &mut Ledger, groups: &[Sent]) -> (usize, usize, i64, Vec<u8>) {
    let bytes = groups::file(groups);
    let mut out = vec![0; bytes.len()];
    let done = ledger.file(&bytes, Some(&mut out)).unwrap();
    out.truncate(done.written);
    (done.accepted, done.rejected, done.change, out)
}

/// The code that a single group gets; empty if it is accepted.
pub fn code(ledger: &Ledger, group: &Sent) -> String {
    codes(ledger, std::slice::from_ref(group)).remove(0)
}

/// The code of each group of a file.
pub fn codes(ledger: &Ledger, groups: &[Sent]) -> Vec<String> {
    let (_, _, _, notices) = file(&mut ledger.clone(), groups);
    let mut codes: Vec<String> = Vec::new();
    for record in notices.chunks(RECORD_LENGTH) {
        match &record[28..33] {
            b"01ACF" => codes.push(String::new()),
            b"01REJ" => codes.push("BR17".into()), // until a detail shows its code
            _ => *codes.last_mut().unwrap() = String::from_utf8(record[259..263].to_vec()).unwrap(),
        }
    }
    codes
}

/// Puts text into the detail.
pub fn detail(mut sent: Sent, position: usize, value: &str) -> Sent {
    text(&mut sent.details[0], position, value.as_bytes());
    sent
}

/// Puts text into the header.
pub fn header(mut sent: Sent, position: usize, value: &str) -> Sent {
    text(&mut sent.header, position, value.as_bytes());
    sent
}

/// Puts text into both.
pub fn both(sent: Sent, position: usize, value: &str) -> Sent {
    detail(header(sent, position, value), position, value)
}

/// Puts consumptions into the four tiers.
pub fn tiers(mut sent: Sent, consumptions: [u64; 4]) -> Sent {
    for (tier, part) in [88, 118, 148, 178].into_iter().zip(consumptions) {
        number(&mut sent.details[0], tier + 7, 10, part);
    }
    sent
}
