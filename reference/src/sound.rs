//! Soundness of a ledger. The calls keep it, so none asks for it; the tests do, after every call, and `words` does.

use crate::fields::Product;
use crate::ledger::{Bill, Ledger, Posted, BILL_LIMIT, LAST_SEQUENCE, USED_UP};

/// Dates, codes and identities hold good values by their types; this asks for the rest.
pub fn is_sound(ledger: &Ledger) -> bool {
    let (tracking, confirmation) = ledger.next_numbers();
    let bills = ledger.bills();
    let twice = |place: usize| bills[..place].iter().any(|bill| bill.identity == bills[place].identity);
    (1..=USED_UP).contains(&tracking)
        && (1..=USED_UP).contains(&confirmation)
        && bills.len() <= BILL_LIMIT
        && bills.iter().all(bill_is_sound)
        && !(0..bills.len()).any(twice)
}

fn bill_is_sound(bill: &Bill) -> bool {
    let (charge, applied, owed) = bill.posted.figures();
    let fits = match bill.posted {
        Posted::None => true,
        Posted::BillReady { .. } => bill.product == Product::BillReady && !bill.cancelled,
        Posted::Prepay { .. } => bill.product == Product::Prepay && !bill.cancelled,
    };
    fits && (1..=bill.sequence).contains(&bill.requests)
        && bill.sequence <= LAST_SEQUENCE
        && (1..USED_UP).contains(&bill.tracking)
        && bill.consumption.0 < 10_u64.pow(10)
        && [charge, applied, owed].iter().all(|amount| amount.0 < 10_u64.pow(13))
        && applied.0 + owed.0 == charge.0
}
