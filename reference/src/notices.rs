//! The notices: BIL, ACF, REJ and CXL, records of 321 bytes. Transmission Date is today.

use crate::dates::Date;
use crate::fields::{Ccf, Product};
use crate::file::{at, blank, number, text, Group, Record, RECORD_LENGTH};
use crate::ledger::Bill;
use crate::verdict::{Code, Notification};

/// A request and a cancel write a header and a detail.
pub const NOTICE_LENGTH: usize = 2 * RECORD_LENGTH;

/// The two numbers a notice carries, and today.
#[derive(Clone, Copy)]
pub struct Stamp {
    pub tracking: u32,
    pub confirmation: u32,
    pub today: Date,
}

/// Writes a BIL for a bill that its request has just added or renewed; `former` is the consumption before it.
pub fn bil(out: &mut [u8], bill: &Bill, former: Ccf, stamp: Stamp) {
    let mut header = blank();
    start(&mut header, bill, b"01", b"BIL", stamp);
    number(&mut header, 42, 9, stamp.confirmation.into());
    number(&mut header, 51, 8, bill.scheduled_date.number().into());
    text(&mut header, 59, b"01");

    let mut detail = blank();
    start(&mut detail, bill, b"02", b"BIL", stamp);
    number(&mut detail, 42, 4, bill.identity.key());
    number(&mut detail, 46, 8, bill.billing_date.number().into());
    number(&mut detail, 54, 3, bill.sequence.into());
    number(&mut detail, 57, 10, bill.consumption.0);
    number(&mut detail, 67, 13, 0);
    number(&mut detail, 80, 8, bill.from_date.number().into());
    number(&mut detail, 88, 120, 0);
    number(&mut detail, 208, 3, bill.requests.into());
    number(&mut detail, 211, 10, former.0);
    number(&mut detail, 221, 13, bill.posted.charge().0);
    if bill.product == Product::Prepay {
        number(&mut detail, 234, 26, 0);
    }
    put_pair(out, &header, &detail);
}

/// Writes a CXL for a bill just cancelled.
pub fn cxl(out: &mut [u8], bill: &Bill, stamp: Stamp) {
    let mut header = blank();
    start(&mut header, bill, b"01", b"CXL", stamp);
    number(&mut header, 42, 9, stamp.confirmation.into());
    text(&mut header, 51, b"00000000");
    text(&mut header, 59, b"01");

    let mut detail = blank();
    start(&mut detail, bill, b"02", b"CXL", stamp);
    number(&mut detail, 42, 4, bill.identity.key());
    put_pair(out, &header, &detail);
}

/// Writes an ACF: the sender's header up to 60, and 61-73 for Prepay. Only a SUP's has the stamp's Tracking ID.
pub fn acf(out: &mut [u8], group: &Group, notification: Notification, bill: &Bill, stamp: Stamp) {
    let mut header = blank();
    text(&mut header, 1, at(group.header, 1, 30));
    replace_first_two(&mut header, b"ACF", stamp.today);
    number(&mut header, 42, 9, stamp.confirmation.into());
    match notification {
        Notification::Rsp => number(&mut header, 51, 8, bill.scheduled_date.number().into()),
        Notification::Sup => {
            number(&mut header, 20, 9, stamp.tracking.into());
            text(&mut header, 51, b"00000000");
        }
    }
    text(&mut header, 59, b"00");
    if bill.product == Product::Prepay {
        text(&mut header, 61, at(group.header, 61, 73));
    }
    out[..RECORD_LENGTH].copy_from_slice(&header);
}

/// Writes a REJ: the sender's header and every detail of the group, each detail with the code.
pub fn rej(out: &mut [u8], group: &Group, code: Code, confirmation: u32, today: Date) {
    let mut header = *group.header;
    replace_first_two(&mut header, b"REJ", today);
    number(&mut header, 42, 9, confirmation.into());
    out[..RECORD_LENGTH].copy_from_slice(&header);

    let places = out[RECORD_LENGTH..].chunks_exact_mut(RECORD_LENGTH);
    for (sent, place) in group.details.iter().zip(places) {
        let mut detail = blank();
        text(&mut detail, 1, at(sent, 1, 259));
        replace_first_two(&mut detail, b"REJ", today);
        let from_date = at(sent, 80, 87);
        if group.notification() == b"SUP" && (from_date == b"        " || from_date == b"00000000") {
            text(&mut detail, 80, b"00010101");
        }
        text(&mut detail, 260, &code.text());
        place.copy_from_slice(&detail);
    }
}

/// Positions 1-41 of both records of a BIL or CXL.
fn start(record: &mut Record, bill: &Bill, kind: &[u8; 2], notification: &[u8; 3], stamp: Stamp) {
    text(record, 1, b"34");
    text(record, 3, bill.rate_code.bytes());
    number(record, 8, 12, bill.identity.account());
    number(record, 20, 9, stamp.tracking.into());
    text(record, 29, kind);
    replace_first_two(record, notification, stamp.today);
}

/// Notification Code and Transmission Date.
fn replace_first_two(record: &mut Record, notification: &[u8; 3], today: Date) {
    text(record, 31, notification);
    number(record, 34, 8, today.number().into());
}

fn put_pair(out: &mut [u8], header: &Record, detail: &Record) {
    out[..RECORD_LENGTH].copy_from_slice(header);
    out[RECORD_LENGTH..NOTICE_LENGTH].copy_from_slice(detail);
}
