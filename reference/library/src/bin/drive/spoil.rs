//! Makes one argument of a call bad, so that it is refused: with 2, a file with 11, holidays with 14.

use clearing::Request;
use reference::file::{FILE_LIMIT, RECORD_LENGTH};
use reference::generator::days::NO_DATES;
use reference::prng::Prng;

use crate::call::Call;

/// Next numbers that fresh refuses.
pub const NO_NUMBERS: [u64; 5] = [0, 1_000_000_000, 1_000_000_001, (1 << 32) + 7, u64::MAX];

/// A number too wide for its field: by one, by a power of two above the old one, by all.
pub fn too_wide(rng: &mut Prng, width: u32, old: u64) -> u64 {
    let limit = 10_u64.pow(width);
    let wrapped = [16, 32, 40, 44, 48].map(|bits| (1 << bits) + old % limit);
    let all = [limit, limit + old % limit, 1 << 63, u64::MAX].into_iter().chain(wrapped);
    *rng.pick(&all.filter(|number| *number >= limit).collect::<Vec<_>>())
}

pub fn spoil(rng: &mut Prng, call: &mut Call) {
    let no_number = *rng.pick(&NO_NUMBERS);
    match call {
        Call::Fresh { today, tracking, confirmation } => match rng.below(3) {
            0 => *today = *rng.pick(&NO_DATES),
            1 => *tracking = no_number,
            _ => *confirmation = no_number,
        },
        Call::Request(request) => spoil_request(rng, 8, request),
        Call::Calendar { request, number, holidays } => match rng.below(9) {
            0 => *number = *rng.pick(&[10, 11, 256, 1 << 32, u64::MAX]),
            1 => holidays.push(*rng.pick(&NO_DATES)),
            _ => spoil_request(rng, 7, request),
        },
        Call::File(file) => spoil_file(rng, file),
        Call::Cancel { account, key } | Call::Amounts { account, key } => match rng.below(2) {
            0 => *account = too_wide(rng, 12, *account),
            _ => *key = too_wide(rng, 4, *key),
        },
        Call::Close { today } => *today = *rng.pick(&NO_DATES),
        Call::Removal { account, date } => match rng.below(2) {
            0 => *account = too_wide(rng, 12, *account),
            _ => *date = *rng.pick(&NO_DATES),
        },
        Call::OpenBill { account } => *account = too_wide(rng, 12, *account),
        Call::LedgerTable | Call::Entry { .. } => {}
    }
}

/// One of the first so many arguments; the Scheduled Date is the eighth.
fn spoil_request(rng: &mut Prng, arguments: usize, request: &mut Request) {
    let no_date = *rng.pick(&NO_DATES);
    match rng.below(arguments) {
        0 => {
            let at = rng.below(5);
            // Bytes that are good in neither of the first two places, or in none of the last three.
            request.code[at] = if at < 2 { *rng.pick(b"az /:@[\x00\xff") } else { *rng.pick(b"ABDZc /:\x00\xff") };
        }
        1 => request.account = too_wide(rng, 12, request.account),
        2 => request.key = too_wide(rng, 4, request.key),
        3 => request.product = *rng.pick(b"ACOQbp0\x00\xc2\xff"),
        4 => request.billing = no_date,
        5 => request.from = no_date,
        6 => request.consumption = too_wide(rng, 10, request.consumption),
        _ => request.scheduled = no_date,
    }
}

fn spoil_file(rng: &mut Prng, file: &mut Vec<u8>) {
    let at = rng.below(file.len().max(1));
    let end = at - at % RECORD_LENGTH + RECORD_LENGTH - 1;
    match rng.below(8) {
        0 if at % RECORD_LENGTH != 0 => file.truncate(at),
        1 => *file = longer_than_200(rng),
        2 if file.len() > at => file[at] = *rng.pick(&[0, 10, 31, 127, 128, 255]),
        3 if file.len() > 29 => file[28..30].copy_from_slice(*rng.pick(&[b"02", b"03", b"00", b"1 ", b"11"])),
        4 if file.len() > at => drop(file.remove(at)),
        5 if file.len() > end => file[end] = b' ',
        _ => file.push(b' '),
    }
}

/// Good records, but too many.
fn longer_than_200(rng: &mut Prng) -> Vec<u8> {
    let mut record = [b'0'; RECORD_LENGTH];
    record[29] = b'1';
    record[RECORD_LENGTH - 1] = 13;
    let records = FILE_LIMIT / RECORD_LENGTH + *rng.pick(&[1, 2, 5, 200]);
    record.repeat(records)
}
