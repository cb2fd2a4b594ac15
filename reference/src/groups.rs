//! The supplier's side: groups for a bill, and the file they make. Used to make journals, never by the ledger.

use crate::dates::Date;
use crate::fields::Product;
use crate::file::{blank, number, text, Record};
use crate::ledger::Bill;
use crate::verdict::Notification;

/// A group as it is sent.
#[derive(Clone)]
pub struct Sent {
    pub header: Record,
    pub details: Vec<Record>,
}

/// The amounts a supplier fills in; all but the charge are for Prepay only.
#[derive(Clone, Copy)]
pub struct Amounts {
    pub charge: u64,
    pub applied: u64,
    pub owed: u64,
    pub balance: u64,
}

/// The group that answers the bill's latest request (RSP) or adjusts it (SUP), all of it in tier 1.
pub fn group(bill: &Bill, notification: Notification, amounts: Amounts, today: Date) -> Sent {
    let rsp = notification == Notification::Rsp;
    // A SUP zero-fills what an RSP copies from its BIL.
    let copied = |number: u64| if rsp { number } else { 0 };
    let mut common = blank();
    text(&mut common, 1, b"34");
    text(&mut common, 3, bill.rate_code.bytes());
    number(&mut common, 8, 12, bill.identity.account());
    number(&mut common, 20, 9, copied(bill.tracking.into()));
    text(&mut common, 31, if rsp { b"RSP" } else { b"SUP" });
    number(&mut common, 34, 8, today.number().into());

    let mut header = common;
    text(&mut header, 29, b"01");
    number(&mut header, 42, 9, 0);
    number(&mut header, 51, 8, copied(bill.scheduled_date.number().into()));
    text(&mut header, 59, b"01");

    let mut detail = common;
    text(&mut detail, 29, b"02");
    number(&mut detail, 42, 4, bill.identity.key());
    number(&mut detail, 46, 8, copied(bill.billing_date.number().into()));
    number(&mut detail, 54, 3, copied(bill.sequence.into()));
    number(&mut detail, 57, 10, bill.consumption.0);
    number(&mut detail, 67, 13, amounts.charge);
    number(&mut detail, 80, 8, bill.from_date.number().into());
    number(&mut detail, 88, 146, 0);
    number(&mut detail, 95, 10, bill.consumption.0);
    number(&mut detail, 105, 13, amounts.charge);
    if bill.product == Product::Prepay {
        number(&mut header, 61, 13, amounts.balance);
        number(&mut detail, 234, 13, amounts.applied);
        number(&mut detail, 247, 13, amounts.owed);
    }
    Sent { header, details: vec![detail] }
}

/// The bytes of a file of these groups.
pub fn file(groups: &[Sent]) -> Vec<u8> {
    let mut file = Vec::new();
    for group in groups {
        file.extend_from_slice(&group.header);
        for detail in &group.details {
            file.extend_from_slice(detail);
        }
    }
    file
}

/// The bytes of a journal entry. The length is the body's, which must fit two bytes.
pub fn entry(tag: u8, body: &[u8]) -> Vec<u8> {
    let length = u16::try_from(body.len()).expect("a body under 65,536 bytes");
    let mut entry = vec![tag];
    entry.extend_from_slice(&length.to_be_bytes());
    entry.extend_from_slice(body);
    entry
}
