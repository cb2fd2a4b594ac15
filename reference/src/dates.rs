//! Dates: yyyymmdd, Gregorian, years 1900 to 2999.

use crate::fields::digits;

/// A date as the number yyyymmdd, so that earlier is smaller.
#[derive(Clone, Copy, Debug, PartialEq, Eq, PartialOrd, Ord)]
pub struct Date(u32);

impl Date {
    /// The date that eight bytes hold, if they hold one.
    pub fn read(field: &[u8]) -> Option<Date> {
        if field.len() != 8 {
            return None;
        }
        Date::of(digits(field)? as u32)
    }

    /// The date that is written as this number, if one is.
    pub fn of(number: u32) -> Option<Date> {
        let (year, month, day) = (number / 10_000, number / 100 % 100, number % 100);
        let good = (1900..=2999).contains(&year) && day >= 1 && day <= month_length(year, month);
        good.then_some(Date(number))
    }

    pub fn number(self) -> u32 {
        self.0
    }

    /// The same day one year later, 28 February for the 29th; None after 2999.
    pub fn anniversary(self) -> Option<Date> {
        Date::of(self.0 + 10_000).or_else(|| Date::of(self.0 + 9_999))
    }

    /// So many days later; None after 29991231.
    pub fn later(self, days: usize) -> Option<Date> {
        (0..days).try_fold(self, |date, _| date.next())
    }

    /// The day after; None after 29991231.
    pub fn next(self) -> Option<Date> {
        let (year, month, day) = (self.0 / 10_000, self.0 / 100 % 100, self.0 % 100);
        if day < month_length(year, month) {
            Some(Date(self.0 + 1))
        } else if month < 12 {
            Some(Date(year * 10_000 + (month + 1) * 100 + 1))
        } else if year < 2999 {
            Some(Date((year + 1) * 10_000 + 101))
        } else {
            None
        }
    }
}

/// Days in a month; 0 for a month that is none, so that no day fits it.
fn month_length(year: u32, month: u32) -> u32 {
    match month {
        1 | 3 | 5 | 7 | 8 | 10 | 12 => 31,
        4 | 6 | 9 | 11 => 30,
        2 if is_leap(year) => 29,
        2 => 28,
        _ => 0,
    }
}

fn is_leap(year: u32) -> bool {
    year % 4 == 0 && (year % 100 != 0 || year % 400 == 0)
}
