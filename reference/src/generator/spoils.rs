//! Ways to spoil a good group so that a chosen line of the verdict is true.

use crate::fields::digits;
use crate::file::{at, number, text, Record};
use crate::groups::Sent;
use crate::prng::Prng;

pub type Spoil = fn(&mut Sent, &mut Prng);

/// Lines 1 and 2: BR17 and BR19.
pub const FORM: &[Spoil] = &[
    |sent, _| sent.details.clear(),
    |sent, rng| {
        let extra = rng.range(1, 3);
        sent.details.extend(vec![sent.details[0]; extra]);
    },
    |sent, rng| text(&mut sent.header, 59, *rng.pick(&[b"00", b"02", b"  ", b"1 ", b" 1", b"11", b"0A"])),
    |sent, rng| {
        let company = *rng.pick(&[b"35", b"43", b"  ", b"3A"]);
        text(&mut sent.header, 1, company);
        text(&mut sent.details[0], 1, company);
    },
    |sent, rng| change_byte(&mut sent.details[0], 1, 28, rng),
    |sent, rng| change_byte(&mut sent.header, 1, 28, rng),
    |sent, rng| {
        let other = if at(&sent.header, 31, 33) == b"RSP" { b"SUP" } else { b"RSP" };
        let record = if rng.chance(50) { &mut sent.header } else { &mut sent.details[0] };
        text(record, 31, other);
    },
    |sent, rng| change_byte(&mut sent.details[0], 31, 33, rng),
    |sent, rng| {
        spoil_digit(&mut sent.header, 8, 19, rng);
        let account = at(&sent.header, 8, 19).to_vec();
        text(&mut sent.details[0], 8, &account);
    },
    |sent, rng| spoil_digit(&mut sent.details[0], 42, 45, rng),
    other_notification,
    other_notification,
    |sent, rng| {
        // Line 1 comes before line 2.
        other_notification(sent, rng);
        spoil_digit(&mut sent.details[0], 42, 45, rng);
    },
];

/// Lines 4 and 5: BR16 and BR07.
pub const WHOSE: &[Spoil] = &[
    |sent, rng| number(&mut sent.details[0], 42, 4, rng.below(10_000) as u64),
    |sent, rng| {
        let account = rng.draw() % 1_000_000_000_000;
        number(&mut sent.header, 8, 12, account);
        number(&mut sent.details[0], 8, 12, account);
    },
    |sent, rng| {
        let code = *rng.pick(&[b"ZZC41", b"AAC40", b"00C00", b"zzC40", b"     ", b"ZZD40"]);
        text(&mut sent.header, 3, code);
        text(&mut sent.details[0], 3, code);
    },
];

/// Line 6: BR01 and BR05. (BR09 and BR11 come from the bill chosen.)
pub const TURN: &[Spoil] = &[
    |sent, rng| {
        let near = digits(at(&sent.header, 20, 28)).unwrap_or(0) + rng.range(1, 3) as u64;
        number(&mut sent.header, 20, 9, near);
        number(&mut sent.details[0], 20, 9, near);
    },
    |sent, rng| {
        spoil_digit(&mut sent.header, 20, 28, rng);
        let tracking = at(&sent.header, 20, 28).to_vec();
        text(&mut sent.details[0], 20, &tracking);
    },
    |sent, rng| number(&mut sent.details[0], 54, 3, rng.below(1000) as u64),
    |sent, rng| {
        let near = digits(at(&sent.details[0], 54, 56)).unwrap_or(0);
        number(&mut sent.details[0], 54, 3, if rng.chance(50) { near + 1 } else { near.saturating_sub(1) });
    },
    |sent, rng| spoil_digit(&mut sent.details[0], 54, 56, rng),
    |sent, _| text(&mut sent.details[0], 54, b"   "),
];

/// Lines 7 to 10: consumption, charge, Prepay amounts, tiers.
pub const AMOUNTS: &[Spoil] = &[
    |sent, rng| spoil_digit(&mut sent.details[0], 57, 66, rng),
    |sent, rng| nudge(&mut sent.details[0], 57, 10, rng),
    |sent, rng| spoil_digit(&mut sent.details[0], 67, 79, rng),
    |sent, rng| spoil_digit(&mut sent.header, 61, 73, rng),
    |sent, rng| spoil_digit(&mut sent.details[0], 234, 246, rng),
    |sent, rng| spoil_digit(&mut sent.details[0], 247, 259, rng),
    |sent, rng| spoil_digit(&mut sent.details[0], 88, 94, rng),
    |sent, rng| {
        let tier = *rng.pick(&TIERS);
        spoil_digit(&mut sent.details[0], tier + 7, tier + 16, rng);
    },
    |sent, rng| {
        let tier = *rng.pick(&TIERS);
        nudge(&mut sent.details[0], tier + 7, 10, rng);
    },
    |sent, rng| wrap_tiers(&mut sent.details[0], 57, 7, 10, rng),
    |sent, rng| {
        let tier = *rng.pick(&TIERS);
        spoil_digit(&mut sent.details[0], tier + 17, tier + 29, rng);
    },
    |sent, rng| {
        let tier = *rng.pick(&TIERS);
        nudge(&mut sent.details[0], tier + 17, 13, rng);
    },
    |sent, rng| wrap_tiers(&mut sent.details[0], 67, 17, 13, rng),
    |sent, rng| nudge(&mut sent.details[0], 234, 13, rng),
    |sent, rng| nudge(&mut sent.details[0], 247, 13, rng),
    |sent, rng| wrap_prepaid(&mut sent.details[0], rng),
];

const TIERS: [usize; 4] = [88, 118, 148, 178];

fn other_notification(sent: &mut Sent, rng: &mut Prng) {
    let code = *rng.pick(&[b"XXX", b"BIL", b"ACF", b"REJ", b"CXL", b"rsp", b"SUp", b"   ", b"RS ", b"R,P"]);
    text(&mut sent.header, 31, code);
    sent.details.iter_mut().for_each(|detail| text(detail, 31, code));
}

/// Another printable byte at a random position of the field.
fn change_byte(record: &mut Record, from: usize, to: usize, rng: &mut Prng) {
    record[rng.range(from, to) - 1] = rng.range(32, 126) as u8;
}

/// Something printable that is no digit: one byte of the field, or the whole field blank.
pub fn spoil_digit(record: &mut Record, from: usize, to: usize, rng: &mut Prng) {
    if rng.chance(15) {
        record[from - 1..to].fill(b' ');
    } else {
        record[rng.range(from, to) - 1] = *rng.pick(b" -+.,/:A~");
    }
}

/// A number one to three away, if the field holds a number.
fn nudge(record: &mut Record, position: usize, width: usize, rng: &mut Prng) {
    let Some(old) = digits(at(record, position, position + width - 1)) else { return };
    let step = rng.range(1, 3) as u64;
    number(record, position, width, if rng.chance(50) { old + step } else { old.saturating_sub(step) });
}

/// Tiers that add up only to who wraps: at the field's width, or at 2^32.
fn wrap_tiers(detail: &mut Record, whole: usize, offset: usize, width: usize, rng: &mut Prng) {
    let Some(whole) = digits(at(detail, whole, whole + width - 1)) else { return };
    let limit = 10_u64.pow(width as u32);
    let mut rest = whole + *rng.pick(&[limit, 1 << 32]);
    for tier in TIERS {
        let part = rest.min(limit - 1);
        number(detail, tier + offset, width, part);
        rest -= part;
    }
}

fn wrap_prepaid(detail: &mut Record, rng: &mut Prng) {
    let Some(charge) = digits(at(detail, 67, 79)) else { return };
    let limit = 10_u64.pow(13);
    let sum = charge + *rng.pick(&[limit, 1 << 32]);
    let applied = sum.min(limit - 1);
    number(detail, 234, 13, applied);
    number(detail, 247, 13, (sum - applied).min(limit - 1));
}
