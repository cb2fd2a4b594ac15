//! The ledger whose words are changed one by one, and the calls that are made on it.

use clearing::Request;
use reference::groups::{self, Amounts};
use reference::journal::{CLOSE, REMOVAL, REQUEST};
use reference::table::LONGEST;
use reference::verdict::Notification;
use reference::words::{self, BLANK, FIELDS};

use crate::both::{word_name, Both};
use crate::call::Call;
use crate::tally::Tally;

pub type Place = [u64; FIELDS.len()];

/// Bill Ready posted and not, Prepay posted and not, a cancelled one, and ones with a sequence above the count; removed
/// or not.
#[rustfmt::skip]
pub const BILLS: [Place; 6] = [
    [123456780019, 7, 90, 90, 52, 48, 66, 1, 1, 0, 1, 85, 20171113, 20171013, 20171116, 1, 4250, 0, 0, 0],
    [123456780019, 8, 90, 90, 52, 48, 80, 2, 2, 0, 5, 86, 20171101, 20171001, 20171114, 2, 4250, 4000, 250, 20171001],
    [0, 0, 65, 57, 48, 55, 66, 3, 1, 0, 2, 0, 20000229, 19000101, 29991231, 0, 0, 0, 0, 19000101],
    [999999999999, 9999, 48, 48, 57, 57, 80, 999, 999, 0, 9, 9999999999, 20171113, 20171013, 20171112, 0, 0, 0, 0,
        20170914],
    [7, 12, 90, 90, 52, 49, 66, 4, 3, 1, 4, 85, 20171113, 20171013, 20171116, 0, 0, 0, 0, 20170913],
    [12, 7, 90, 90, 52, 49, 80, 5, 2, 0, 6, 85, 20171113, 20171013, 20171113, 2, 9999999999999, 1, 9999999999998, 0],
];

/// A ledger of these bills.
pub fn ledger(bills: &[Place]) -> Vec<u64> {
    let mut words = vec![20171113, 77, 88, bills.len() as u64];
    (0..128).for_each(|at| words.extend(bills.get(at).unwrap_or(&BLANK)));
    words
}

/// The words of 128 bills with an account and a key of their own.
pub fn full() -> Vec<u64> {
    let bill = |at: usize| {
        let mut bill = BILLS[at % BILLS.len()];
        (bill[0], bill[1]) = (500 + at as u64, 999 - at as u64);
        bill
    };
    ledger(&(0..128).map(bill).collect::<Vec<_>>())
}

/// Words to change together, and what to.
pub type Change = Vec<(usize, u64)>;

/// A request for a bill of the first one's account, without a date.
pub fn undated(key: u64, consumption: u64) -> Request {
    let (code, account, product) = (*b"ZZC40", 123_456_780_019, b'B');
    let (billing, from, scheduled) = (20171110, 20171010, 0);
    Request { code, account, key, product, billing, from, consumption, scheduled }
}

fn entry(tag: u8, body: &[u8]) -> Call {
    Call::Entry { journal: groups::entry(tag, body), seen: 1 }
}

/// Calls that the ledger of `BILLS` carries out, and ones that it refuses for another cause than 2; with their outputs.
pub fn calls() -> Vec<(Call, usize)> {
    let request =
        |key: u64, consumption: u64, scheduled: u64| Call::Request(Request { scheduled, ..undated(key, consumption) });
    let calendar = |key: u64, number: u64, holidays: &[u64]| Call::Calendar {
        request: undated(key, 90),
        number,
        holidays: holidays.to_vec(),
    };
    let sound = words::read(&ledger(&BILLS)).expect("a sound ledger");
    let amounts = Amounts { charge: 4000, applied: 0, owed: 4000, balance: 0 };
    let file = groups::file(&[groups::group(&sound.bills()[0], Notification::Rsp, amounts, sound.today())]);
    let body = b"ZZC401234567800190007B2017111020171010000000009020171113";
    vec![
        (request(7, 90, 20171113), 642),
        (request(9, 90, 20171116), 700),
        (request(7, 85, 20171112), 641),
        (calendar(7, 3, &[20171115]), 642),
        (calendar(9, 0, &[]), 642),
        (calendar(9, 0, &[20171115, 20171115]), 0),
        (calendar(9, 3, &[20171114]), 641),
        (Call::File(vec![]), 0),
        (Call::File(file), 642),
        (Call::File(vec![b' '; 320]), 0),
        (Call::Cancel { account: 12, key: 7 }, 642),
        (Call::Cancel { account: 7, key: 12 }, 0),
        (Call::Close { today: 20171117 }, 0),
        (Call::Close { today: 20171113 }, 0),
        (Call::Removal { account: 123_456_780_019, date: 20171120 }, 0),
        (Call::Removal { account: 8, date: 20171120 }, 0),
        (Call::OpenBill { account: 123_456_780_019 }, 0),
        (Call::OpenBill { account: 8 }, 0),
        (Call::Amounts { account: 123_456_780_019, key: 8 }, 0),
        (Call::Amounts { account: 8, key: 8 }, 0),
        (Call::LedgerTable, LONGEST),
        (Call::LedgerTable, LONGEST - 1),
        (entry(REQUEST, body), 642),
        (entry(CLOSE, b"20171113"), 0),
        (entry(REMOVAL, b"00000000000720171120"), 0),
    ]
}

/// The words with a change made.
pub fn changed(words: &[u64], change: &Change) -> Vec<u64> {
    let mut words = words.to_vec();
    change.iter().for_each(|(at, value)| words[*at] = *value);
    words
}

/// Makes every call on the words, each call on the words as given; returns the numbers.
pub fn numbers(words: &[u64], tally: &mut Tally) -> Result<Vec<u64>, String> {
    calls().iter().map(|(call, length)| Both::of(words).call(tally, call, *length)).collect()
}

/// A change as a person reads it.
pub fn describe(change: &Change) -> String {
    let words: Vec<String> = change.iter().map(|(at, value)| format!("{} set to {value}", word_name(*at))).collect();
    words.join(", ")
}
