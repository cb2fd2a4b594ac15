//! The functions of the calendar, which take no ledger: every date there is, and seeded starts, numbers and holidays.

use reference::calendar::{self, moved, HOLIDAY_LIMIT};
use reference::generator::days::{some_holidays, some_number, some_start, NO_DATES};
use reference::prng::Prng;
use reference::words::date;
use reference::Cause;

use crate::lent::{same, Lent};
use crate::tally::Tally;

/// Questions of a seed.
const QUESTIONS: u64 = 60;

enum What {
    Weekday,
    Next,
    Further(u64),
}

/// What is asked of the calendar.
struct Question<'a> {
    what: What,
    date: u64,
    holidays: &'a [u64],
}

impl Question<'_> {
    fn name(&self) -> &'static str {
        match self.what {
            What::Weekday => "weekday",
            What::Next => "next_business_day",
            What::Further(_) => "business_day",
        }
    }

    /// The second implementation's answer.
    fn answer(&self) -> Result<u64, Cause> {
        let day = match self.what {
            What::Weekday => return calendar::weekday(self.date),
            What::Next => calendar::next_business_day(self.date, self.holidays),
            What::Further(number) => calendar::business_day(self.date, number, self.holidays),
        };
        day.map(|day| day.number().into())
    }

    /// Asks the library; what it found is written to `found`.
    fn ask(&self, holidays: &[u64], found: &mut u64) -> u64 {
        match self.what {
            What::Weekday => clearing::weekday(self.date, found),
            What::Next => clearing::next_business_day(self.date, holidays, found),
            What::Further(number) => clearing::business_day(self.date, number, holidays, found),
        }
    }

    fn bad_arguments(&self) -> Vec<&'static str> {
        let number_is_good = !matches!(self.what, What::Further(10..));
        let arguments = [("date", date(self.date).is_some()), ("number", number_is_good)];
        arguments.into_iter().filter(|argument| !argument.1).map(|argument| argument.0).collect()
    }

    /// Asks both sides; an error tells what differed.
    fn compare(&self, tally: &mut Tally) -> Result<(), String> {
        let number = self.both(tally.calls()).map_err(|told| {
            let number = if let What::Further(number) = self.what { format!(", number {number}") } else { "".into() };
            format!("{} (date {}{number}, holidays {:?}): {told}", self.name(), self.date, self.holidays)
        })?;
        tally.number(self.name(), number);
        self.count(tally, number);
        Ok(())
    }

    /// The number that both sides answer.
    fn both(&self, turn: u64) -> Result<u64, String> {
        let answer = self.answer();
        let odd = 0xdead_beef_0000_0000 + turn;
        let mut found = Lent::new(&[odd], !odd, 0);
        // A look past the list would make the day found a holiday.
        let holidays = Lent::new(self.holidays, answer.unwrap_or(u64::MAX), 0);
        let number = self.ask(holidays.inside(), &mut found.lend()[0]);
        let wanted = answer.err().map_or(0, |cause| cause.number().into());
        if number != wanted {
            return Err(format!("answered {number}, expected {wanted}"));
        }
        same(&holidays, self.holidays, "holidays", &|at| format!("number {at}"))?;
        same(&found, &[answer.unwrap_or(odd)], "what was found", &|_| "it".into())?;
        Ok(number)
    }

    /// Counts what the answer shows, where one thing alone decided.
    fn count(&self, tally: &mut Tally, number: u64) {
        let name = self.name();
        let why = match number {
            2 => self.bad_arguments(),
            14 => faults(self.holidays),
            _ => vec![],
        };
        if let [why] = why[..] {
            tally.label(format!("{name} {number}: {why}"));
        }
        match self.what {
            What::Further(0) if number == 0 && self.starts_on_none() => {
                tally.label("business_day 0: on a start that is none".into());
            }
            What::Further(further @ 0..=9) if number != 2 => {
                tally.label(format!("{name} {number}: {further} further on"));
            }
            _ => {}
        }
        if number == 0 && self.holidays.len() == HOLIDAY_LIMIT {
            tally.label(format!("{name} 0: {HOLIDAY_LIMIT} holidays"));
        }
    }

    /// The start is no business day.
    fn starts_on_none(&self) -> bool {
        self.holidays.contains(&self.date) || calendar::weekday(self.date).is_ok_and(|weekday| weekday > 5)
    }
}

/// Why holidays are refused, one or more of `FAULTS`.
pub fn faults(holidays: &[u64]) -> Vec<&'static str> {
    let mut pairs = holidays.iter().zip(holidays.iter().skip(1));
    let found = [
        holidays.len() > HOLIDAY_LIMIT,
        pairs.clone().any(|(one, other)| one == other),
        pairs.any(|(one, other)| one > other),
        !holidays.iter().all(|day| date(*day).is_some()),
    ];
    FAULTS.into_iter().zip(found).filter(|fault| fault.1).map(|fault| fault.0).collect()
}

pub const FAULTS: [&str; 4] = ["over 64", "equal neighbours", "falling", "no date"];

/// The weekday of every date and of numbers about them that are none; from every date on, a business day.
pub fn every_date(tally: &mut Tally) -> Result<(), String> {
    let holidays = [19000102, 20171115, 20171225, 29991230];
    for year in 1899..=3000 {
        for number in (0..=13).flat_map(|month| (0..=32).map(move |day| year * 10_000 + month * 100 + day)) {
            Question { what: What::Weekday, date: number, holidays: &[] }.compare(tally)?;
            if date(number).is_some() {
                Question { what: What::Next, date: number, holidays: &holidays }.compare(tally)?;
                Question { what: What::Further(number % 10), date: number, holidays: &[] }.compare(tally)?;
            }
        }
    }
    // All that four digits may say of a month and a day.
    for number in [19000000, 20000000, 20170000, 29990000].into_iter().flat_map(|year| year..year + 10_000) {
        Question { what: What::Weekday, date: number, holidays: &[] }.compare(tally)?;
    }
    wide_numbers(tally)
}

/// Numbers that would be dates if they were cut, and other large ones.
fn wide_numbers(tally: &mut Tally) -> Result<(), String> {
    let cut = [8, 16, 31, 32, 40, 48, 63].map(|bits| (1 << bits) + 20171113);
    for number in cut.into_iter().chain(NO_DATES).chain([100_000_000, 120_171_113, 2_017_111, 1_000_020_171_113]) {
        Question { what: What::Weekday, date: number, holidays: &[] }.compare(tally)?;
        Question { what: What::Next, date: number, holidays: &[] }.compare(tally)?;
        Question { what: What::Next, date: 20171112, holidays: &[number] }.compare(tally)?;
        Question { what: What::Further(0), date: 20171112, holidays: &[20171113, number] }.compare(tally)?;
        Question { what: What::Further(number), date: 20171112, holidays: &[] }.compare(tally)?;
    }
    Ok(())
}

/// The questions of a seed.
pub fn drive(seed: u64, tally: &mut Tally) -> Result<(), String> {
    let mut rng = Prng::new(seed ^ 0xca1e_0000_0000_0000);
    for at in 0..QUESTIONS {
        let start = some_start(&mut rng);
        let mut holidays = some_holidays(&mut rng, start);
        let date = if rng.chance(5) { *rng.pick(&NO_DATES) } else { start };
        let number = some_number(&mut rng);
        let told = |told: String| format!("seed {seed}, question {at} of the calendar: {told}");
        for what in [What::Next, What::Further(number)] {
            Question { what, date, holidays: &holidays }.compare(tally).map_err(told)?;
        }
        // The day found becomes a holiday, the last one.
        if let Ok(day) = calendar::business_day(date, number, &holidays) {
            holidays.retain(|holiday| *holiday < u64::from(day.number()));
            holidays.push(day.number().into());
            Question { what: What::Further(number), date, holidays: &holidays }.compare(tally).map_err(told)?;
        }
        let near = moved(start, rng.below(9) as isize - 4).unwrap_or(start);
        Question { what: What::Weekday, date: near, holidays: &[] }.compare(tally).map_err(told)?;
    }
    Ok(())
}
