//! Business days: weekdays, the next business day, a number further on, and what is refused.

use reference::calendar::{business_day, next_business_day, program, weekday};
use reference::Cause;

/// A number of business days further on, as a number.
fn further(start: u64, number: u64, holidays: &[u64]) -> Result<u64, Cause> {
    business_day(start, number, holidays).map(|date| date.number().into())
}

fn next(date: u64, holidays: &[u64]) -> Result<u64, Cause> {
    let answer = next_business_day(date, holidays).map(|date| date.number().into());
    assert_eq!(answer, further(date, 1, holidays));
    answer
}

/// The first so many days of 2017, as holidays: they strictly rise.
fn holidays(count: usize) -> Vec<u64> {
    let days =
        [(1, 31), (2, 28), (3, 31)].into_iter().flat_map(|(month, days)| (1..=days).map(move |day| (month, day)));
    days.take(count).map(|(month, day)| 20170000 + month * 100 + day).collect()
}

#[test]
fn weekdays() {
    for (date, day) in [(19000101, 1), (20171113, 1), (20171116, 4), (20171118, 6), (20171119, 7), (20000229, 2)] {
        assert_eq!(weekday(date), Ok(day), "{date}");
    }
    // Known from elsewhere.
    for (date, day) in [(19690720, 7), (24000229, 2), (24000301, 3), (29991231, 2), (19000228, 3), (19000301, 4)] {
        assert_eq!(weekday(date), Ok(day), "{date}");
    }
    for date in [0, 18991231, 19000229, 20171131, 20171301, 20170001, 30000101, (1 << 32) + 20171113, u64::MAX] {
        assert_eq!(weekday(date), Err(Cause::BadField), "{date}");
    }
}

/// Another way to a weekday: the day of a date in its 400 years of 146,097 days, which are 20,871 weeks.
#[test]
fn weekdays_again() {
    for year in 1900..=2999_u64 {
        for (month, day) in [(1, 1), (2, 28), (3, 1), (12, 31)] {
            // Counted from 1 March, so that a leap day is a year's last.
            let (years, months) = if month < 3 { (year - 1, month + 9) } else { (year, month - 3) };
            let days = 365 * years + years / 4 - years / 100 + years / 400 + (153 * months + 2) / 5 + day - 1;
            // 1 March of the year 0 was a Wednesday.
            assert_eq!(weekday(year * 10_000 + month * 100 + day), Ok((days + 2) % 7 + 1), "{year} {month} {day}");
        }
    }
}

#[test]
fn document_002_s_examples() {
    // 13 to 16 November 2017: the operators' number is 3.
    assert_eq!(further(20171113, 3, &[]), Ok(20171116));
    let numbers: Vec<u64> = (0..=9).filter(|number| further(20171113, *number, &[]) == Ok(20171116)).collect();
    assert_eq!(numbers, [3]);
}

#[test]
fn further_on() {
    assert_eq!(
        (0..=9).map(|number| further(20171117, number, &[]).unwrap() % 10_000).collect::<Vec<_>>(),
        [1117, 1120, 1121, 1122, 1123, 1124, 1127, 1128, 1129, 1130]
    );
    // From a Saturday and a Sunday the count begins on Monday.
    assert_eq!((further(20171118, 1, &[]), further(20171119, 1, &[])), (Ok(20171120), Ok(20171120)));
    assert_eq!(
        (next(20171116, &[]), next(20171117, &[]), next(20171231, &[])),
        (Ok(20171117), Ok(20171120), Ok(20180101))
    );
    assert_eq!(
        (next(20000228, &[]), next(20000229, &[]), next(21000226, &[])),
        (Ok(20000229), Ok(20000301), Ok(21000301))
    );
}

#[test]
fn holidays_between() {
    assert_eq!(further(20171113, 3, &[20171115]), Ok(20171117));
    assert_eq!(further(20171113, 3, &[20171114, 20171115, 20171117]), Ok(20171121));
    // The last one counts, too; one on a Saturday, on the start, before it or far after it changes nothing.
    assert_eq!(further(20171113, 3, &[20161225, 20171112, 20171113, 20171116]), Ok(20171117));
    assert_eq!(further(20171117, 1, &[20171118]), Ok(20171120));
    assert_eq!(further(20171113, 3, &[20171112, 20171113, 20171117, 29991231]), Ok(20171116));
    assert_eq!(next(20170101, &holidays(64)), Ok(20170306));
}

#[test]
fn none_further_is_the_start() {
    for start in [20171113, 20171118, 20171119, 19000101, 29991231, 20000229] {
        assert_eq!(further(start, 0, &[]), Ok(start));
        assert_eq!(further(start, 0, &[start]), Ok(start));
    }
}

#[test]
fn no_such_day() {
    // 29991231 is a Tuesday.
    assert_eq!(further(29991230, 1, &[]), Ok(29991231));
    assert_eq!(further(29991227, 2, &[]), Ok(29991231));
    assert_eq!(further(29991231, 1, &[]), Err(Cause::NoBusinessDay));
    assert_eq!(further(29991230, 2, &[]), Err(Cause::NoBusinessDay));
    assert_eq!(further(29991230, 1, &[29991231]), Err(Cause::NoBusinessDay));
    assert_eq!(further(29991218, 9, &[]), Ok(29991231));
    assert_eq!(further(29991219, 9, &[]), Err(Cause::NoBusinessDay));
}

#[test]
fn order_of_causes() {
    let bad: [&[u64]; 6] =
        [&[20171114, 20171114], &[20171115, 20171114], &[20171131], &[0], &[u64::MAX], &holidays(65)];
    for holidays in bad {
        assert_eq!(further(20171113, 10, holidays), Err(Cause::BadField));
        assert_eq!(further(20171131, 0, holidays), Err(Cause::BadField));
        assert_eq!(further(20171113, u64::MAX, holidays), Err(Cause::BadField));
        (0..=9).for_each(|number| assert_eq!(further(20171113, number, holidays), Err(Cause::BadHolidays)));
        assert_eq!(further(29991231, 9, holidays), Err(Cause::BadHolidays));
    }
    assert_eq!(holidays(65).len(), 65);
    assert!(further(20170103, 0, &holidays(64)).is_ok());
    // One that is no date, wherever it stands, is enough: day 00 of a month still rises.
    let firsts: Vec<u64> = (0..64).map(|month| 20170101 + month / 12 * 10_000 + month % 12 * 100).collect();
    assert_eq!(further(20171113, 0, &firsts), Ok(20171113));
    for place in 0..64 {
        let mut spoiled = firsts.clone();
        spoiled[place] -= 1;
        assert_eq!(further(20171113, 0, &spoiled), Err(Cause::BadHolidays), "{place}");
    }
}

#[test]
fn the_program() {
    let run = |date: &str, number: &str, input: &str| program(date.as_bytes(), number.as_bytes(), input.as_bytes());
    assert_eq!(run("20171113", "3", ""), "20171116\n");
    assert_eq!(run("20171113", "3", "20171115\n"), "20171117\n");
    assert_eq!(run("20171113", "3", "20171115\n20171117"), "20171120\n");
    for (date, number) in
        [("2017111", "3"), ("020171113", "3"), ("20171113", "10"), ("20171113", ""), ("", "3"), ("20171113", "x")]
    {
        assert_eq!(run(date, number, "\n"), "stopped,2\n", "{date} {number}");
    }
    for input in ["\n", "20171115\n\n", "2017111\n", "020171115\n", "20171115 \n", "20171115\r\n", "20171131\n"] {
        assert_eq!(run("20171113", "0", input), "stopped,14\n", "{input:?}");
    }
    let lines = |count| holidays(count).iter().map(|day| format!("{day}\n")).collect::<String>();
    assert_eq!(
        (run("20170101", "1", &lines(64)), run("20170101", "1", &lines(65))),
        ("20170306\n".into(), "stopped,14\n".into())
    );
    assert_eq!(run("29991231", "1", ""), "stopped,15\n");
}
