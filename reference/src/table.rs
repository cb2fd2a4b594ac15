//! The posted table: the bytes `posted` prints.

use crate::fields::push_number;
use crate::journal::Replayed;
use crate::ledger::{Bill, Ledger};

pub const HEADING: &[u8] = b"account,key,code,kind,seq,ccf,charge,applied,owed,state\n";

/// The longest table: heading, 128 lines, total and `stopped,13`.
pub const LONGEST: usize = 10_970;

/// The table of a journal; after a bad entry its last line is `stopped,13`.
pub fn table(replayed: &Replayed) -> Vec<u8> {
    let mut table = of_ledger(replayed.ledger.as_ref());
    if replayed.stopped {
        table.extend_from_slice(b"stopped,13\n");
    }
    table
}

/// The heading, one line a bill in ledger order, and the total; without a ledger no bills and a zero total.
pub fn of_ledger(ledger: Option<&Ledger>) -> Vec<u8> {
    let mut table = HEADING.to_vec();
    let mut total = 0;
    if let Some(ledger) = ledger {
        for bill in ledger.bills() {
            put_line(&mut table, ledger, bill);
        }
        total = ledger.total().0;
    }
    table.extend_from_slice(b"total,");
    push_number(&mut table, 16, total);
    table.push(b'\n');
    table
}

fn put_line(table: &mut Vec<u8>, ledger: &Ledger, bill: &Bill) {
    let (charge, applied, owed) = bill.posted.figures();
    push_number(table, 12, bill.identity.account());
    table.push(b',');
    push_number(table, 4, bill.identity.key());
    table.push(b',');
    table.extend_from_slice(bill.rate_code.bytes());
    table.push(b',');
    table.push(bill.product.letter());
    table.push(b',');
    push_number(table, 3, bill.sequence.into());
    table.push(b',');
    push_number(table, 10, bill.consumption.0);
    for amount in [charge, applied, owed] {
        table.push(b',');
        push_number(table, 13, amount.0);
    }
    table.push(b',');
    table.push(state(ledger, bill));
    table.push(b'\n');
}

/// O, I (issued) or C, by today at the end.
fn state(ledger: &Ledger, bill: &Bill) -> u8 {
    if bill.cancelled {
        b'C'
    } else if ledger.is_open(bill) {
        b'O'
    } else {
        b'I'
    }
}
