//! Ledgers made word by word, not by calls: sound ones that no list would reach, and ones with a word or two changed.

use reference::generator::days::NO_DATES;
use reference::prng::Prng;
use reference::words::{self, BLANK, COUNT, FIELDS, HEAD, WORDS};

use crate::aim::{some_billing, some_call, some_consumption, some_removal, DATES};
use crate::base::Place;
use crate::both::Both;
use crate::tally::Tally;

/// Makes a ledger, one of several of a seed, and some calls on it.
pub fn drive(seed: u64, which: u64, tally: &mut Tally) -> Result<(), String> {
    let mut rng = Prng::new((seed << 8 | which) ^ 0x1ed6_e200_0000_0000);
    let mut words = some_ledger(&mut rng);
    let sound = words::read(&words).ok_or(format!("seed {seed}, ledger {which}: drive itself takes it for unsound"))?;
    if rng.chance(60) {
        (0..rng.range(1, 2)).for_each(|_| change_word(&mut rng, &mut words));
    }
    let mut both = Both::of(&words);
    tally.label(format!("ledgers: {}", if both.ledger().is_some() { "sound" } else { "not sound" }));
    for at in 0..6 {
        let call = some_call(&mut rng, both.ledger().unwrap_or(&sound));
        let enough = call.output().unwrap_or(0);
        let length = *rng.pick(&[enough, enough, enough, enough + 5, enough.saturating_sub(1), 0]);
        let told = |told: String| format!("seed {seed}, ledger {which}, call {at}: {told}");
        both.call(tally, &call, length).map_err(told)?;
    }
    Ok(())
}

/// A sound ledger; places past the count hold anything of the form.
fn some_ledger(rng: &mut Prng) -> Vec<u64> {
    let count = *rng.pick(&[0, 1, 2, 3, 5, 8, 20, 126, 127, 128]);
    let today = *rng.pick(&DATES);
    let number = |rng: &mut Prng| *rng.pick(&[1, 77, 999_999_900, 999_999_998, 999_999_999, 1_000_000_000]);
    let mut words = vec![today, number(rng), number(rng), count as u64];
    let first_key = rng.below(10_000) as u64;
    for place in 0..128_u64 {
        // Keys 77 apart: no identity stands twice.
        let bill = some_bill(rng, today, (first_key + 77 * place) % 10_000);
        words.extend(if (place as usize) < count { bill } else { past_the_count(rng, bill) });
    }
    words
}

pub fn some_bill(rng: &mut Prng, today: u64, key: u64) -> Place {
    let sequence = *rng.pick(&[1, 1, 2, 3, 500, 998, 999]);
    let cancelled = u64::from(rng.chance(12));
    let product = *rng.pick(&[66, 80]);
    let posted = cancelled == 0 && rng.chance(70);
    let charge = *rng.pick(&[0, 1, 4250, 4_294_971_546, 9_999_999_999_999]);
    let applied = *rng.pick(&[0, charge, charge / 3]);
    let amounts = match product {
        66 if posted => [1, charge, 0, 0],
        80 if posted => [2, charge, applied, charge - applied],
        _ => [0; 4],
    };
    let scheduled = if rng.chance(50) { *rng.pick(&DATES) } else { today };
    let mut bill = [0; FIELDS.len()];
    bill[..2].copy_from_slice(&[*rng.pick(&[0, 7, 123_456_780_019, 999_999_999_999]), key]);
    bill[2..4].copy_from_slice(&[*rng.pick(b"AZ09KC"), *rng.pick(b"AZ09KC")].map(u64::from));
    bill[4..6].copy_from_slice(&[*rng.pick(b"0459"), *rng.pick(b"0459")].map(u64::from));
    bill[6..10].copy_from_slice(&[product, sequence, *rng.pick(&[1, sequence, sequence.div_ceil(2)]), cancelled]);
    bill[10..12].copy_from_slice(&[*rng.pick(&[1, 77, 123_456_789, 999_999_999]), some_consumption(rng)]);
    bill[12..15].copy_from_slice(&[some_billing(rng, today), *rng.pick(&DATES), scheduled]);
    bill[15..19].copy_from_slice(&amounts);
    bill[19] = if rng.chance(40) { 0 } else { some_removal(rng, today) };
    bill
}

/// Blank, a bill that does not count, or any words of the form.
fn past_the_count(rng: &mut Prng, bill: Place) -> Place {
    match rng.below(4) {
        0 | 1 => BLANK,
        2 => bill,
        _ => {
            let mut place: Place = std::array::from_fn(|_| rng.draw());
            place[2..6].iter_mut().for_each(|word| *word %= 256);
            place[6] = *rng.pick(&[66, 80]);
            place[9] %= 2;
            place[15] %= 3;
            // Words that the kind does not use are 0.
            let unused = if place[15] == 2 { 19 } else { 16 + place[15] as usize };
            place[unused..19].fill(0);
            place
        }
    }
}

/// Gives one word, most often of a bill, a value that may or may not be good there.
fn change_word(rng: &mut Prng, words: &mut [u64]) {
    let count = words[COUNT] as usize;
    let at = match rng.below(10) {
        0 => rng.below(HEAD.len()),
        1..=7 if (1..=128).contains(&count) => rng.range(HEAD.len(), words::place(count) - 1),
        8 if count < 128 => words::place(count) + rng.below(FIELDS.len()),
        _ => rng.below(WORDS),
    };
    let old = words[at];
    let other = words[rng.below(WORDS)];
    let near = [old ^ 1, old.wrapping_add(1), old.wrapping_sub(1), !old, other];
    let wrapped = [8, 16, 32, 48, 63].map(|bits| old.wrapping_add(1 << bits));
    let small = [0, 1, 2, 3, 47, 48, 57, 58, 64, 65, 66, 80, 90, 91, 127, 128, 129, 255, 256, 300, 998, 999, 1000];
    let powers = [4, 9, 10, 12, 13].map(|width| 10_u64.pow(width));
    words[at] = match rng.below(6) {
        0 => *rng.pick(&near),
        1 => *rng.pick(&wrapped),
        2 => *rng.pick(&small),
        3 => *rng.pick(&powers) - rng.below(2) as u64,
        4 => *rng.pick(&DATES),
        _ => *rng.pick(&NO_DATES),
    };
}
