//! The history's own dates: business days, the year after a Billing Date, the days after a removal date.

use std::iter::successors;

use super::{is_date, value};
use crate::dates::Date;

/// Today for 0, else the business day of this number after it; None if there is no such day.
pub fn further(today: &[u8], number: u64, holidays: &[u64]) -> Option<Vec<u8>> {
    let later = successors(Date::read(today), |date| date.next()).skip(1);
    let business = later.map(|date| date.number()).filter(|day| is_business_day(*day, holidays));
    match number {
        0 => Some(today.to_vec()),
        _ => business.take(9).nth(number as usize - 1).map(|day| day.to_string().into_bytes()),
    }
}

/// Neither a Saturday nor a Sunday, by Zeller's congruence, in which a Saturday is 0, nor a holiday.
fn is_business_day(day: u32, holidays: &[u64]) -> bool {
    let day = u64::from(day);
    let (year, month) = from_march(day / 10_000, day / 100 % 100);
    let weekday = (day % 100 + 13 * (month + 1) / 5 + year + year / 4 - year / 100 + year / 400) % 7;
    weekday > 1 && !holidays.contains(&day)
}

pub fn are_holidays(days: &[u64]) -> bool {
    let mut sorted = days.to_vec();
    sorted.sort();
    sorted.dedup();
    sorted == days && days.len() < 65 && days.iter().all(|day| is_date(day.to_string().as_bytes()))
}

/// Over a year: in the next year later in it than the Billing Date in its own, or in one still later. The year after a
/// 29 February has none: its 28 February is not later, its 1 March is.
pub fn is_over_a_year(today: &[u8], billing: &[u8]) -> bool {
    let last = value(&billing[..4]) + 1;
    value(&today[..4]) > last || (value(&today[..4]) == last && today[4..] > billing[4..])
}

/// Over 60 days, by the numbers of the two days.
pub fn is_over_sixty_days(today: &[u8], removal: &[u8]) -> bool {
    day_number(today) > day_number(removal) + 60
}

/// Days counted from one long ago: 365 a year and the leap days, 30 or 31 a month in their order from March on.
fn day_number(date: &[u8]) -> u64 {
    let (year, month, day) = (value(&date[..4]), value(&date[4..6]), value(&date[6..]));
    let (year, month) = from_march(year, month);
    365 * year + year / 4 - year / 100 + year / 400 + (153 * month - 457) / 5 + day
}

/// January and February are months 13 and 14 of the year before.
fn from_march(year: u64, month: u64) -> (u64, u64) {
    if month < 3 {
        (year - 1, month + 12)
    } else {
        (year, month)
    }
}
