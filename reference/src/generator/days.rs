//! Starts, numbers and lists of holidays for the calendar, good and bad.

use crate::calendar::{moved, HOLIDAY_LIMIT};
use crate::prng::Prng;

/// About year ends, the ends of February, weekends and both ends of all dates.
const STARTS: [u64; 20] = [
    19000101, 19000228, 19001231, 19991231, 20000228, 20000229, 20161230, 20171113, 20171117, 20171118, 20171119,
    20171229, 21000228, 24000229, 29991201, 29991218, 29991224, 29991227, 29991230, 29991231,
];

/// Numbers that are no dates.
#[rustfmt::skip]
pub const NO_DATES: [u64; 20] = [
    0, 1, 10101, 18991231, 19000229, 20170001, 20170100, 20170132, 20170229, 20170431, 20171131, 20171301, 21000229,
    30000101, 99999999, 120171113, (1 << 32) + 20171113, 1 << 63, u64::MAX - 1, u64::MAX,
];

/// A date, most often near a place where something changes.
pub fn some_start(rng: &mut Prng) -> u64 {
    let start = *rng.pick(&STARTS);
    let days = match rng.below(10) {
        0 => rng.below(400_000) as isize,
        _ => rng.below(15) as isize - 7,
    };
    moved(start, days).unwrap_or(start)
}

/// Business days further on: 0 to 9, rarely more.
pub fn some_number(rng: &mut Prng) -> u64 {
    match rng.below(12) {
        0 => *rng.pick(&[10, 11, 13, 255, 256, 259, 1 << 32, (1 << 32) + 3, u64::MAX - 2, u64::MAX]),
        _ => rng.below(10) as u64,
    }
}

/// Holidays about a date: good ones in seven of ten lists, or so.
pub fn some_holidays(rng: &mut Prng, about: u64) -> Vec<u64> {
    match rng.below(20) {
        0..=2 => Vec::new(),
        3..=4 => from(about, rng.range(1, 12) as isize, 1, 1),
        5..=8 => some_of(rng, about),
        9..=11 => {
            let (first, count) = (rng.below(3) as isize, rng.range(1, HOLIDAY_LIMIT));
            from(about, first, count, 1)
        }
        12 => from(about, -40, HOLIDAY_LIMIT, *rng.pick(&[1, 2, 3, 7])),
        13 => vec![19000101, 29991231],
        14 => from(about, -20, HOLIDAY_LIMIT + *rng.pick(&[1, 1, 1, 2, 64, 936]), 1),
        _ => spoiled(rng, about),
    }
}

/// So many dates, each so many days after the one before; fewer where the dates end.
fn from(about: u64, first: isize, count: usize, step: isize) -> Vec<u64> {
    (0..count as isize).filter_map(|at| moved(about, first + at * step)).collect()
}

/// Some of the days about a date; most of them, now and then.
fn some_of(rng: &mut Prng, about: u64) -> Vec<u64> {
    let percent = *rng.pick(&[10, 30, 60, 90]);
    let days = from(about, -6, 30, 1);
    days.into_iter().filter(|_| rng.chance(percent)).collect()
}

/// A list that would be good but for one place.
fn spoiled(rng: &mut Prng, about: u64) -> Vec<u64> {
    let mut days = from(about, -3, rng.range(2, HOLIDAY_LIMIT - 1), 1);
    let place = rng.below(days.len().max(1));
    let Some(day) = days.get(place).copied() else { return vec![*rng.pick(&NO_DATES)] };
    match rng.below(5) {
        0 => days.insert(place, day),
        1 if place > 0 => days.swap(place - 1, place),
        2 => days[place] = *rng.pick(&NO_DATES),
        3 => days.push(*rng.pick(&[30000101, 99999999, (1 << 32) + 20171113, u64::MAX])),
        // No date, but where it belongs: the month's day 0, or a day after its last.
        _ => {
            days = from(about, -200, HOLIDAY_LIMIT - 1, 7);
            let none = about / 100 * 100 + *rng.pick(&[0, 32, 99]);
            days.insert(days.partition_point(|day| *day < none), none);
        }
    }
    days
}
