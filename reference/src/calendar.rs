//! Business days (document 02, paper 1). A table holds every date in order with its weekday, counted on from 19000101,
//! a Monday; all else is looked up in it or found by going through it day by day.

use std::sync::OnceLock;

use crate::cause::Cause;
use crate::dates::Date;
use crate::fields::digits;

/// No more holidays than these may be lent.
pub const HOLIDAY_LIMIT: usize = 64;
/// The greatest number of business days further on.
pub const FURTHEST: u64 = 9;

struct Day {
    date: Date,
    /// 1 Monday to 7 Sunday.
    weekday: u64,
}

impl Day {
    fn number(&self) -> u64 {
        self.date.number().into()
    }

    fn is_business_day(&self, holidays: &[u64]) -> bool {
        self.weekday < 6 && !holidays.contains(&self.number())
    }
}

/// All dates there are.
fn table() -> &'static [Day] {
    static TABLE: OnceLock<Vec<Day>> = OnceLock::new();
    TABLE.get_or_init(|| {
        let months = (1900..=2999).flat_map(|year| (1..=12).map(move |month| (year, month)));
        let numbers = months.flat_map(|(year, month)| (1..=31).map(move |day| year * 10_000 + month * 100 + day));
        let dates = numbers.filter_map(Date::of);
        dates.zip((1..=7).cycle()).map(|(date, weekday)| Day { date, weekday }).collect()
    })
}

/// Where a date stands in the table; None for a number that is no date.
fn place(date: u64) -> Option<usize> {
    table().binary_search_by_key(&date, Day::number).ok()
}

/// The date so many days after another, or before it; None past either end of the table.
pub fn moved(date: u64, days: isize) -> Option<u64> {
    place(date)?.checked_add_signed(days).and_then(|place| table().get(place)).map(Day::number)
}

/// The weekday of a date, 1 Monday to 7 Sunday. Refused: 2.
pub fn weekday(date: u64) -> Result<u64, Cause> {
    place(date).map(|place| table()[place].weekday).ok_or(Cause::BadField)
}

/// The first business day after a date. Refused: 2, 14, 15.
pub fn next_business_day(date: u64, holidays: &[u64]) -> Result<Date, Cause> {
    business_day(date, 1, holidays)
}

/// The least date from the start on with exactly this number of business days after the start up to it.
/// Refused: 2 (no date, a number over 9), 14, 15.
pub fn business_day(start: u64, number: u64, holidays: &[u64]) -> Result<Date, Cause> {
    let start = place(start).filter(|_| number <= FURTHEST).ok_or(Cause::BadField)?;
    if !are_holidays(holidays) {
        return Err(Cause::BadHolidays);
    }
    let mut passed = 0;
    for (at, day) in table().iter().enumerate().skip(start) {
        passed += u64::from(at > start && day.is_business_day(holidays));
        if passed == number {
            return Ok(day.date);
        }
    }
    Err(Cause::NoBusinessDay)
}

/// They strictly rise, are dates, and not too many.
fn are_holidays(holidays: &[u64]) -> bool {
    let rise = holidays.windows(2).all(|pair| pair[0] < pair[1]);
    rise && holidays.len() <= HOLIDAY_LIMIT && holidays.iter().all(|day| place(*day).is_some())
}

/// What program `business_day` writes: the date or `stopped,` and the number of the cause, and byte 10.
pub fn program(date: &[u8], number: &[u8], holidays: &[u8]) -> String {
    let field = |field: &[u8], width: usize| digits(field).filter(|_| field.len() == width);
    let answer = match (field(date, 8), field(number, 1)) {
        (Some(date), Some(number)) => business_day(date, number, &lines(holidays)),
        _ => Err(Cause::BadField),
    };
    match answer {
        Ok(date) => format!("{:08}\n", date.number()),
        Err(cause) => format!("stopped,{}\n", cause.number()),
    }
}

/// The dates of lines that end in byte 10, which the last one may lack. A line that is not eight digits is no date: 0.
fn lines(input: &[u8]) -> Vec<u64> {
    if input.is_empty() {
        return Vec::new();
    }
    let lines = input.strip_suffix(b"\n").unwrap_or(input).split(|byte| *byte == b'\n');
    lines.map(|line| digits(line).filter(|_| line.len() == 8).unwrap_or(0)).collect()
}
