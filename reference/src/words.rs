//! A ledger in words, the form in which the proved engine's library takes it (`include/clearing.h` of the repository).

use crate::dates::Date;
use crate::fields::{Ccf, Cents, Identity, Product, RateCode};
use crate::ledger::{Bill, Ledger, Posted, BILL_LIMIT};

/// Today, the two next numbers and the count of bills stand before the places.
pub const HEAD: [&str; 4] = ["today", "next Tracking ID", "next Confirmation Number", "count of bills"];
pub const COUNT: usize = 3;

/// What each word of a place holds; the rate code's C is not held.
#[rustfmt::skip]
pub const FIELDS: [&str; 20] = [
    "account", "key", "rate code, first", "rate code, second", "rate code, tens", "rate code, ones", "product",
    "sequence", "count of requests", "cancelled", "Tracking ID", "consumption", "Billing Date", "From Date",
    "Scheduled Date", "kind of posted amounts", "charge", "applied", "owed", "removal date",
];
pub const WORDS: usize = HEAD.len() + BILL_LIMIT * FIELDS.len();

/// What fresh leaves in every place.
pub const BLANK: [u64; FIELDS.len()] = [0, 0, 0, 0, 0, 0, b'B' as u64, 0, 0, 0, 0, 0, 0, 0, 0, 0, 0, 0, 0, 0];

/// The first word of a place.
pub fn place(place: usize) -> usize {
    HEAD.len() + place * FIELDS.len()
}

/// Writes a ledger over words; places past its bills keep what they hold.
pub fn put(ledger: &Ledger, words: &mut [u64]) {
    let (tracking, confirmation) = ledger.next_numbers();
    let bills = ledger.bills();
    words[..HEAD.len()].copy_from_slice(&[
        ledger.today().number().into(),
        tracking.into(),
        confirmation.into(),
        bills.len() as u64,
    ]);
    for (at, bill) in bills.iter().enumerate() {
        words[place(at)..place(at + 1)].copy_from_slice(&put_bill(bill));
    }
}

/// The words of a ledger whose other places are blank.
pub fn of(ledger: &Ledger) -> Vec<u64> {
    let mut words = vec![0; HEAD.len()];
    (0..BILL_LIMIT).for_each(|_| words.extend(BLANK));
    put(ledger, &mut words);
    words
}

/// The ledger that words hold; None if one of the places is not of the form, or the ledger is not sound.
pub fn read(words: &[u64]) -> Option<Ledger> {
    if words.len() != WORDS {
        return None;
    }
    let places: Vec<&[u64; FIELDS.len()]> = words[HEAD.len()..].as_chunks().0.iter().collect();
    let count = usize::try_from(words[COUNT]).ok()?;
    if count > BILL_LIMIT || !places.iter().all(|place| has_form(place)) {
        return None;
    }
    let bills: Option<Vec<Bill>> = places[..count].iter().map(|place| read_bill(place)).collect();
    Ledger::holding(date(words[0])?, words[1].try_into().ok()?, words[2].try_into().ok()?, bills?)
}

fn put_bill(bill: &Bill) -> [u64; FIELDS.len()] {
    let code = bill.rate_code.bytes().map(u64::from);
    let (kind, charge, applied, owed) = match bill.posted {
        Posted::None => (0, 0, 0, 0),
        Posted::BillReady { charge } => (1, charge.0, 0, 0),
        Posted::Prepay { charge, applied, owed } => (2, charge.0, applied.0, owed.0),
    };
    [
        bill.identity.account(),
        bill.identity.key(),
        code[0],
        code[1],
        code[3],
        code[4],
        bill.product.letter().into(),
        bill.sequence.into(),
        bill.requests.into(),
        bill.cancelled.into(),
        bill.tracking.into(),
        bill.consumption.0,
        bill.billing_date.number().into(),
        bill.from_date.number().into(),
        bill.scheduled_date.number().into(),
        kind,
        charge,
        applied,
        owed,
        bill.removal_date.map_or(0, |date| date.number().into()),
    ]
}

/// Asked of every place, also past the count.
fn has_form(place: &[u64; FIELDS.len()]) -> bool {
    let amounts = match place[15] {
        0 => place[16..19] == [0, 0, 0],
        1 => place[17..19] == [0, 0],
        2 => true,
        _ => false,
    };
    amounts && place[2..6].iter().all(|word| *word < 256) && [66, 80].contains(&place[6]) && place[9] <= 1
}

fn read_bill(place: &[u64; FIELDS.len()]) -> Option<Bill> {
    let byte = |at: usize| u8::try_from(place[at]).ok();
    let posted = match place[15] {
        0 => Posted::None,
        1 => Posted::BillReady { charge: Cents(place[16]) },
        _ => Posted::Prepay { charge: Cents(place[16]), applied: Cents(place[17]), owed: Cents(place[18]) },
    };
    Some(Bill {
        identity: identity(place[0], place[1])?,
        rate_code: RateCode::read(&[byte(2)?, byte(3)?, b'C', byte(4)?, byte(5)?])?,
        product: Product::read(byte(6)?)?,
        sequence: place[7].try_into().ok()?,
        requests: place[8].try_into().ok()?,
        cancelled: place[9] == 1,
        posted,
        tracking: place[10].try_into().ok()?,
        consumption: consumption(place[11])?,
        billing_date: date(place[12])?,
        from_date: date(place[13])?,
        scheduled_date: date(place[14])?,
        removal_date: removal_date(place[19])?,
    })
}

/// 0 stands for no removal date; None for a number that is no date.
fn removal_date(number: u64) -> Option<Option<Date>> {
    match number {
        0 => Some(None),
        _ => date(number).map(Some),
    }
}

/// A number zero-filled to its field's width; one that is too wide becomes longer, and so no field.
pub fn text(number: u64, width: usize) -> Vec<u8> {
    format!("{number:0width$}").into_bytes()
}

pub fn date(number: u64) -> Option<Date> {
    Date::read(&text(number, 8))
}

pub fn identity(account: u64, key: u64) -> Option<Identity> {
    Identity::read(&text(account, 12), &text(key, 4))
}

/// Whole Ccf, 10 digits.
pub fn consumption(number: u64) -> Option<Ccf> {
    (number < 10_u64.pow(10)).then_some(Ccf(number))
}
