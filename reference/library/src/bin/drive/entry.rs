//! A journal entry as a call: what stands in the bytes lent, and the entry that makes a call.

use reference::dates::Date;
use reference::fields::digits;
use reference::groups;
use reference::journal::{start, Entry, Start, CANCEL, CLOSE, FILE, FRESH, REMOVAL, REQUEST};
use reference::notices::NOTICE_LENGTH;
use reference::words::text;
use reference::Request;

use crate::call::Call;

/// What is told: the entry's bytes and 0; or 0, and 1 if the bytes end before the entry does.
pub fn told(journal: &[u8], seen: u64) -> [u64; 2] {
    match start(journal, seen) {
        Start::Entry(_, length) => [length as u64, 0],
        Start::Short => [0, 1],
        Start::Bad => [0, 0],
    }
}

/// Why no whole good entry stands there, one of `FAULTS`: read from the bytes alone.
pub fn fault(journal: &[u8], seen: u64) -> &'static str {
    let [tag, high, low, body @ ..] = journal else { return "cut short in tag or length" };
    let length = usize::from(*high) * 256 + usize::from(*low);
    let lengths = [26..=26, 56..=56, 0..=64_200, 16..=16, 8..=8, 20..=20];
    match (*tag, seen) {
        (6.., _) => "tag",
        (FRESH, 1..) => "fresh later",
        (1.., 0) => "another tag first",
        (_, 1_000_000_000..) => "after the 1,000,000,000th",
        _ if !lengths[usize::from(*tag)].contains(&length) => "length",
        _ if body.len() < length => "cut short in the body",
        _ => "refused fresh",
    }
}

pub const FAULTS: [&str; 8] = [
    "cut short in tag or length",
    "cut short in the body",
    "tag",
    "fresh later",
    "another tag first",
    "after the 1,000,000,000th",
    "length",
    "refused fresh",
];

/// The length of output that the entry's call needs; None for a call without output.
pub fn output(journal: &[u8], seen: u64) -> Option<usize> {
    match start(journal, seen) {
        Start::Entry(Entry::Request(_) | Entry::Cancel(_), _) => Some(NOTICE_LENGTH),
        Start::Entry(Entry::File(file), _) => Some(file.len()),
        _ => None,
    }
}

/// The fields of the body are all good.
pub fn body_is_good(journal: &[u8], seen: u64) -> bool {
    match start(journal, seen) {
        Start::Entry(Entry::Request(body), _) => Request::read(body).is_ok(),
        Start::Entry(Entry::Cancel(body), _) => digits(body).is_some(),
        Start::Entry(Entry::Close(body), _) => Date::read(body).is_some(),
        Start::Entry(Entry::Removal(body), _) => digits(&body[..12]).is_some() && Date::read(&body[12..]).is_some(),
        _ => true,
    }
}

/// The bytes of the entry that makes a call; None for a lookup or a file too long. A number that is too wide for its
/// field becomes one that is not digits.
pub fn of_call(call: &Call) -> Option<Vec<u8>> {
    let (tag, body) = match call {
        Call::Fresh { today, tracking, confirmation } => {
            (FRESH, [field(*today, 8), field(*tracking, 9), field(*confirmation, 9)].concat())
        }
        Call::Request(request) => {
            let identity = [field(request.account, 12), field(request.key, 4)].concat();
            let dates = [field(request.billing, 8), field(request.from, 8)].concat();
            let rest = [field(request.consumption, 10), field(request.scheduled, 8)].concat();
            (REQUEST, [&request.code[..], &identity, &[request.product], &dates, &rest].concat())
        }
        Call::File(file) => (FILE, file.clone()),
        Call::Cancel { account, key } => (CANCEL, [field(*account, 12), field(*key, 4)].concat()),
        Call::Close { today } => (CLOSE, field(*today, 8)),
        Call::Removal { account, date } => (REMOVAL, [field(*account, 12), field(*date, 8)].concat()),
        _ => return None,
    };
    (body.len() < 1 << 16).then(|| groups::entry(tag, &body))
}

fn field(number: u64, width: usize) -> Vec<u8> {
    let digits = text(number, width);
    if digits.len() > width {
        return [&vec![b'0'; width - 1][..], b":"].concat();
    }
    digits
}
