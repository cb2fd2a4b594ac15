//! Bad entries of each kind: at the start of a journal and at its end.

use super::calls::BAD_DATES;
use super::filled;
use crate::groups::entry;
use crate::journal::{CANCEL, CLOSE, FILE, FRESH, REMOVAL, REQUEST};
use crate::prng::Prng;

const GOOD_FRESH: &[u8; 26] = b"20171113000000001000000001";
const GOOD_REQUEST: &[u8; 56] = b"ZZC401234567800190007B2017111320171013000000008520171116";

const GOOD_REMOVAL: &[u8; 20] = b"12345678001920171113";

/// A journal that never gets a ledger: empty, a refused fresh, another tag first, a first entry cut short.
pub fn bad_start(rng: &mut Prng) -> Vec<u8> {
    let mut journal = match rng.below(8) {
        0 => return Vec::new(),
        1..=3 => entry(FRESH, &refused_fresh(rng)),
        4 => some_entry(rng),
        5 => {
            let mut cut = entry(FRESH, GOOD_FRESH);
            cut.truncate(rng.range(1, 28));
            return cut;
        }
        6 => entry(*rng.pick(&[6, 48, 255]), GOOD_FRESH),
        _ => entry(FRESH, &GOOD_FRESH[..rng.range(0, 25)]),
    };
    // What follows must not be read.
    journal.extend(entry(FRESH, GOOD_FRESH));
    journal.extend(entry(REQUEST, GOOD_REQUEST));
    journal
}

fn refused_fresh(rng: &mut Prng) -> [u8; 26] {
    let mut body = *GOOD_FRESH;
    match rng.below(5) {
        0 => body[..8].copy_from_slice(*rng.pick(BAD_DATES)),
        1 => body[8..17].copy_from_slice(&filled::<9>(0)),
        2 => body[17..].copy_from_slice(&filled::<9>(0)),
        _ => body[8 + rng.below(18)] = *rng.pick(b" -A:/\xff"),
    }
    body
}

/// Ends a journal with a bad entry.
pub fn bad_end(journal: &mut Vec<u8>, rng: &mut Prng) {
    match rng.below(9) {
        0 => return journal.push(*rng.pick(&[0, 1, 2, 3, 4, 5, 6, 10, 13, 255])), // a stray byte
        1 => return journal.extend([rng.below(6) as u8, 0]),
        2 => {
            let whole = some_entry(rng);
            return journal.extend(&whole[..rng.range(3, whole.len() - 1)]);
        }
        3 if rng.chance(50) => journal.extend(entry(6, [&GOOD_REMOVAL[..], b"01", b""][rng.below(3)])),
        3 => journal.extend(entry(rng.range(6, 255) as u8, GOOD_REQUEST)),
        4 => journal.extend(entry(*rng.pick(b"0123456"), &GOOD_REQUEST[..rng.below(57)])),
        5 => journal.extend(wrong_length(rng)),
        6 | 7 => {
            let length = *rng.pick(&[64_201, 64_521, 65_535, 64_210]);
            journal.extend(entry(FILE, &vec![b' '; length]));
        }
        _ => journal.extend(entry(FRESH, GOOD_FRESH)),
    }
    // What follows a whole but bad entry must not be read.
    for _ in 0..rng.below(3) {
        journal.extend(some_entry(rng));
    }
}

fn wrong_length(rng: &mut Prng) -> Vec<u8> {
    let (tag, right) = *rng.pick(&[(REQUEST, 56), (CANCEL, 16), (CLOSE, 8), (REMOVAL, 20)]);
    let length = *rng.pick(&[right - 1, right + 1, 0, 1, right + 256, 26]);
    let mut body = GOOD_REQUEST.repeat(6);
    body.truncate(length);
    entry(tag, &body)
}

/// An entry that is good by itself, other than fresh.
fn some_entry(rng: &mut Prng) -> Vec<u8> {
    match rng.below(6) {
        0 => entry(REQUEST, GOOD_REQUEST),
        1 => entry(CANCEL, b"1234567800190007"),
        2 => entry(CLOSE, b"29991231"),
        3 => entry(FILE, &vec![b'x'; rng.range(1, 1000)]),
        4 => entry(REMOVAL, GOOD_REMOVAL),
        _ => entry(REQUEST, b"A9C999999999999990000P2017111320171013000000000029991231"),
    }
}
