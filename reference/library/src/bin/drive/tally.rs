//! What was called, what came of it, and what must have occurred.

use std::collections::BTreeMap;

use reference::Ledger;

use crate::call::Call;
use crate::{days, entry, situations};

/// Every function, those on a ledger first, and the numbers that documents 01 and 02 allow for it.
const ALLOWED: [(&str, &[u64]); 16] = [
    ("fresh", &[0, 2]),
    ("request", &[0, 1, 2, 3, 5, 6, 7, 8, 9, 12]),
    ("request_by_calendar", &[0, 1, 2, 3, 5, 6, 7, 8, 12, 14, 15]),
    ("file", &[0, 1, 2, 11, 12]),
    ("cancel", &[0, 1, 2, 4, 5, 12]),
    ("close", &[0, 2, 10]),
    ("removal", &[0, 2, 4]),
    ("open_bill", &[0, 2, 4]),
    ("amounts", &[0, 2, 4]),
    ("ledger_table", &[0, 1, 2]),
    ("entry", &[0, 1, 2, 3, 4, 5, 6, 7, 8, 9, 10, 11, 12, 13]),
    ("table", &[0, 1]),
    ("notices", &[0, 1]),
    ("weekday", &[0, 2]),
    ("next_business_day", &[0, 2, 14, 15]),
    ("business_day", &[0, 2, 14, 15]),
];
/// How many of them take a ledger.
const ON_LEDGERS: usize = 11;

/// Each argument that alone must have been the cause of a 2.
const ARGUMENTS: [(&str, &[&str]); 12] = [
    ("fresh", &["today", "next Tracking ID", "next Confirmation Number"]),
    (
        "request",
        &["rate code", "account", "key", "product", "Billing Date", "From Date", "consumption", "Scheduled Date"],
    ),
    (
        "request_by_calendar",
        &["rate code", "account", "key", "product", "Billing Date", "From Date", "consumption", "number"],
    ),
    ("cancel", &["account", "key"]),
    ("close", &["today"]),
    ("removal", &["account", "date"]),
    ("open_bill", &["account"]),
    ("amounts", &["account", "key"]),
    ("entry", &["body"]),
    ("weekday", &["date"]),
    ("next_business_day", &["date"]),
    ("business_day", &["date", "number"]),
];

#[derive(Default)]
pub struct Tally {
    numbers: BTreeMap<(&'static str, u64), u64>,
    labels: BTreeMap<String, u64>,
}

impl Tally {
    /// Counts a call on a ledger; `sized`: its words have the right number, `sound`: they are a sound ledger.
    pub fn call(&mut self, call: &Call, length: usize, number: u64, sized: bool, sound: bool) {
        let name = call.name();
        self.number(name, number);
        if let Some(enough) = call.output() {
            self.output(name, enough, length, number);
        }
        if number == 2 {
            match call.bad_arguments()[..] {
                _ if !sized => self.label(format!("{name} 2: length of the ledger")),
                _ if !sound && name != "fresh" => self.label(format!("{name} 2: ledger not sound")),
                [argument] => self.label(format!("{name} 2: {argument}")),
                _ => {}
            }
        }
        match (call, number) {
            (Call::Entry { journal, seen }, 13) => {
                self.label(format!("entry 13: {}", entry::fault(journal, *seen)));
            }
            (Call::Calendar { number: further, holidays, .. }, 14) => self.holidays(name, *further, holidays),
            (Call::Calendar { number: further, .. }, 0 | 15) => {
                self.label(format!("{name} {number}: {further} further on"));
            }
            _ => {}
        }
    }

    /// Counts holidays that are refused.
    fn holidays(&mut self, name: &str, further: u64, holidays: &[u64]) {
        self.label(format!("{name} 14: {further} further on"));
        if let [fault] = days::faults(holidays)[..] {
            self.label(format!("{name} 14: {fault}"));
        }
    }

    /// Counts the situations of a lookup that named an open bill or found none.
    pub fn lookup(&mut self, ledger: &Ledger, account: u64) {
        situations::of(ledger, account).into_iter().for_each(|situation| self.label(situation));
    }

    pub fn number(&mut self, name: &'static str, number: u64) {
        *self.numbers.entry((name, number)).or_default() += 1;
    }

    /// Counts an output by its length, where the length decided or was enough.
    pub fn output(&mut self, name: &str, enough: usize, length: usize, number: u64) {
        let kind = match length {
            _ if length > enough => "long",
            _ if length == enough => "exact",
            0 => "0",
            _ if length + 1 == enough => "short by one",
            _ => "short",
        };
        if number == u64::from(length < enough) {
            self.label(format!("{name}, output {kind}: {number}"));
        }
    }

    pub fn label(&mut self, label: String) {
        *self.labels.entry(label).or_default() += 1;
    }

    /// How many calls were made.
    pub fn calls(&self) -> u64 {
        self.numbers.values().sum()
    }

    /// What should have occurred and did not.
    pub fn missing(&self) -> Vec<String> {
        let of_numbers = ALLOWED.iter().flat_map(|(name, numbers)| numbers.iter().map(move |number| (*name, *number)));
        let mut missing: Vec<String> = of_numbers
            .filter(|pair| !self.numbers.contains_key(pair))
            .map(|(name, number)| format!("{name} {number}"))
            .collect();
        missing.extend(required().into_iter().filter(|label| !self.labels.contains_key(label)));
        missing
    }

    /// A line for each function with how often it gave each number, then the labels.
    pub fn report(&self) -> String {
        let mut report = String::new();
        for (name, _) in ALLOWED {
            let of_name = self.numbers.iter().filter(|((called, _), _)| *called == name);
            let counts: Vec<String> = of_name.map(|((_, number), count)| format!("{number}: {count}")).collect();
            report += &format!("{name:<20} {}\n", counts.join("  "));
        }
        self.labels.iter().for_each(|(label, count)| report += &format!("{count:>9}  {label}\n"));
        report
    }
}

fn required() -> Vec<String> {
    let mut labels = Vec::new();
    for (name, arguments) in ARGUMENTS {
        labels.extend(arguments.iter().map(|argument| format!("{name} 2: {argument}")));
    }
    labels.extend(entry::FAULTS.map(|fault| format!("entry 13: {fault}")));
    for (name, _) in &ALLOWED[..ON_LEDGERS] {
        labels.push(format!("{name} 2: length of the ledger"));
        if *name != "fresh" {
            labels.push(format!("{name} 2: ledger not sound"));
        }
    }
    labels.extend(of_calendar());
    labels.extend(situations::all());
    for name in ["request", "request_by_calendar", "file", "cancel", "ledger_table", "entry", "table", "notices"] {
        for kind in ["0: 1", "short by one: 1", "exact: 0", "long: 0"] {
            labels.push(format!("{name}, output {kind}"));
        }
    }
    labels
}

/// Each fault of the holidays alone, each number of days, and where they lead.
fn of_calendar() -> Vec<String> {
    let mut labels = vec!["business_day 0: on a start that is none".to_string()];
    for name in ["request_by_calendar", "next_business_day", "business_day"] {
        labels.extend(days::FAULTS.map(|fault| format!("{name} 14: {fault}")));
    }
    for name in ["request_by_calendar", "business_day"] {
        labels.extend((0..=9).flat_map(|days| [0, 14].map(|number| format!("{name} {number}: {days} further on"))));
        labels.extend((1..=9).map(|days| format!("{name} 15: {days} further on")));
    }
    labels.extend(["next_business_day", "business_day"].map(|name| format!("{name} 0: 64 holidays")));
    labels
}
