//! What journals reach: counted from a journal's bytes and the reference's notices and trace, whatever the maker meant.

mod borders;
mod labels;

use std::collections::BTreeMap;

use crate::dates::Date;
use crate::fields::{digits, Product, RateCode};
use crate::file::{at, groups, records, Group, FILE_LIMIT, RECORD_LENGTH};
use crate::journal::{carry_out, fresh, Effect, Entries, Entry, Next, FILE, FRESH, REMOVAL};
use crate::ledger::{Ledger, BILL_LIMIT, USED_UP};
use crate::Cause;

#[derive(Clone, Default)]
pub struct Coverage(BTreeMap<String, u64>);

impl Coverage {
    pub fn count(&mut self, label: &str) {
        self.add(label, 1);
    }

    fn add(&mut self, label: &str, times: u64) {
        match self.0.get_mut(label) {
            Some(count) => *count += times,
            None => drop(self.0.insert(label.to_string(), times)),
        }
    }

    pub fn merge(&mut self, other: &Coverage) {
        other.0.iter().for_each(|(label, count)| self.add(label, *count));
    }

    /// The labels that were never reached.
    pub fn missing(&self) -> Vec<String> {
        labels::expected().into_iter().filter(|label| !self.0.contains_key(label)).collect()
    }

    /// A table: label, how often.
    pub fn report(&self) -> String {
        let mut report: String = self.0.iter().map(|(label, count)| format!("{count:>10}  {label}\n")).collect();
        match self.missing() {
            none if none.is_empty() => report += "never reached: none of those a journal can reach\n",
            missing => report += &format!("NEVER REACHED: {}\n", missing.join("; ")),
        }
        for (label, why) in labels::UNREACHABLE {
            report += &format!("unreachable: {label} ({why})\n");
        }
        report
    }

    /// Counts what one journal reaches.
    pub fn of(journal: &[u8]) -> Coverage {
        let mut coverage = Coverage::default();
        let mut entries = Entries::new(journal);
        let Ok(Next::Entry(Entry::Fresh(body))) = entries.read_next() else {
            coverage.bad_first(journal);
            return coverage;
        };
        let Ok(mut ledger) = fresh(body) else {
            coverage.count("fresh cause 2");
            coverage.count("bad: refused fresh");
            return coverage;
        };
        coverage.count("fresh done");
        let mut read = 29;
        let mut out = vec![0; FILE_LIMIT];
        loop {
            match entries.read_next() {
                Ok(Next::Entry(entry)) => read += coverage.call(&mut ledger, entry, &mut out),
                Ok(Next::Bad) => break coverage.bad_later(&journal[read..]),
                _ => break coverage.count("end: not stopped"),
            }
        }
        coverage.lines(&ledger);
        coverage
    }

    /// Counts what the lines of a journal's trace show.
    pub fn trace(&mut self, trace: &[u8]) {
        for line in trace.split(|byte| *byte == b'\n').filter(|line| !line.is_empty()) {
            let text = String::from_utf8_lossy(line);
            match text.strip_prefix("group,") {
                Some(group) => self.traced_group(group),
                None => self.traced_entry(&text),
            }
        }
    }

    fn traced_entry(&mut self, line: &str) {
        let fields: Vec<&str> = line.split(',').collect();
        let [_, call, cause, change, accepted, rejected, closed] = fields[..] else {
            return self.count(&format!("trace: {}", fields.join(" ")));
        };
        self.count(&format!("trace: {call} {cause}"));
        self.count_if(change.starts_with('-'), "trace: change negative");
        self.count_if(accepted != "000" && rejected != "000", "trace: accepted and rejected");
        self.count_if(accepted >= "100" || rejected >= "100", "trace: 100 groups or more");
        self.count_if(closed != "000", "trace: closed");
    }

    /// Confirmation Number 9, account 12, Bill Key 4, Notification Code 3, with commas between, and the outcome.
    fn traced_group(&mut self, group: &str) {
        self.count(&format!("trace: group {}", &group[32..]));
        self.count_if(group[10..22].contains(','), "trace: account with a comma");
        self.count_if(&group[23..27] == "    ", "trace: group without detail");
    }

    fn bad_first(&mut self, journal: &[u8]) {
        self.count(match journal {
            [] => "bad: empty journal",
            [1..=5, ..] => "bad: another tag first",
            _ => "bad: first entry otherwise",
        });
    }

    fn bad_later(&mut self, rest: &[u8]) {
        self.count(match rest {
            [_] => "bad: stray byte",
            [_, _] => "bad: cut short in the length",
            [FRESH, ..] => "bad: tag 0 later",
            [6, ..] => "bad: tag 6",
            [7..=255, ..] => "bad: tag",
            [FILE, high, low, ..] if u16::from_be_bytes([*high, *low]) > FILE_LIMIT as u16 => "bad: file over 64,200",
            [REMOVAL, 0, 20, ..] => "bad: cut short in a removal",
            [REMOVAL, ..] => "bad: length of a removal",
            [tag, high, low, ..] if *tag != FILE && [*high, *low] != [0, [26, 56, 0, 16, 8][*tag as usize]] => {
                "bad: length"
            }
            _ => "bad: cut short in the body",
        });
    }

    /// Carries the call out and counts it; returns the entry's length in the journal.
    fn call(&mut self, ledger: &mut Ledger, entry: Entry, out: &mut [u8]) -> usize {
        let before = ledger.clone();
        let result = carry_out(ledger, entry, Some(out));
        let grew = ledger.bills().len() > before.bills().len();
        let (name, length) = match entry {
            Entry::Request(_) if result.is_ok() && grew => ("request done, new bill", 56),
            Entry::Request(_) if result.is_ok() => ("request done, known bill", 56),
            Entry::Request(_) => ("request", 56),
            Entry::File(file) => ("file", file.len()),
            Entry::Cancel(_) => ("cancel", 16),
            Entry::Close(_) => ("close", 8),
            Entry::Removal(_) => ("removal", 20),
            Entry::Fresh(_) => ("fresh", 26),
        };
        match (&result, entry) {
            (Ok(_), Entry::Request(_)) => self.count(name),
            (Ok(_), _) => self.count(&format!("{name} done")),
            (Err(cause), _) => self.count(&format!("{name} cause {}", cause.number())),
        }
        match (entry, result) {
            (Entry::File(file), result) => self.file(ledger, file, result, out),
            (Entry::Request(body), Err(Cause::BadField)) => self.bad_fields(body),
            (Entry::Request(body), Ok(_)) => self.requested(ledger, body, grew),
            (Entry::Removal(body), Err(Cause::BadField)) => self.bad_removal(body),
            (Entry::Removal(body), Ok(_)) => self.removal(&before, body),
            _ => {}
        }
        self.state(ledger);
        3 + length
    }

    fn bad_fields(&mut self, body: &[u8; 56]) {
        let not_date = |field: &[u8]| Date::read(field).is_none();
        let fields = [
            (RateCode::read(&body[..5]).is_none(), "2: rate code"),
            (digits(&body[5..21]).is_none(), "2: account or key"),
            (Product::read(body[21]).is_none(), "2: product"),
            (not_date(&body[22..30]), "2: Billing Date"),
            (not_date(&body[30..38]), "2: From Date"),
            (digits(&body[38..48]).is_none(), "2: consumption"),
            (not_date(&body[48..]), "2: Scheduled Date"),
        ];
        fields.iter().filter(|field| field.0).for_each(|field| self.count(field.1));
    }

    fn file(&mut self, ledger: &Ledger, file: &[u8], result: Result<Effect, Cause>, out: &[u8]) {
        let Ok(records) = records(file) else { return self.bad_file(file) };
        let Ok(effect) = result else { return };
        let groups = groups(records);
        self.count_if(file.is_empty(), "file: empty");
        self.count_if(records.len() == 200, "file: 200 records");
        self.count_if(groups.len() == 100, "file: 100 groups");
        self.alike(&groups);
        let mut notices = &out[..effect.written];
        for group in &groups {
            let accepted = &notices[30..33] == b"ACF";
            let length = if accepted { RECORD_LENGTH } else { group.records() * RECORD_LENGTH };
            let kind = match group.notification() {
                b"RSP" => "RSP",
                b"SUP" => "SUP",
                _ => "other",
            };
            if accepted {
                self.accepted(ledger, group, kind);
            } else {
                // A group without details shows no code; it is BR17.
                let code = notices[..length].get(321 + 259..321 + 263).unwrap_or(b"BR17");
                self.rejected(ledger, group, kind, &String::from_utf8_lossy(code));
            }
            notices = &notices[length..];
        }
    }

    fn bad_file(&mut self, file: &[u8]) {
        let all: Vec<&[u8]> = file.chunks(RECORD_LENGTH).filter(|record| record.len() == RECORD_LENGTH).collect();
        let kind_is_good = |record: &&[u8]| &record[28..30] == b"01" || &record[28..30] == b"02";
        self.count_if(file.len() % RECORD_LENGTH != 0, "11: length");
        let text_is_good = |record: &&[u8]| record[..320].iter().all(|byte| (32..=126).contains(byte));
        self.count_if(!all.iter().all(text_is_good), "11: byte");
        self.count_if(!all.iter().all(|record| record[320] == 13), "11: byte 321");
        self.count_if(!all.iter().all(kind_is_good), "11: type");
        self.count_if(all.first().is_some_and(|record| &record[28..30] == b"02"), "11: first record");
    }

    /// Duplicates, by bytes: same code, account and key under a single detail.
    fn alike(&mut self, groups: &[Group]) {
        let mut seen: BTreeMap<Vec<u8>, [u64; 2]> = BTreeMap::new();
        for group in groups.iter().filter(|group| crate::verdict::claim(group).is_ok()) {
            let identity = [at(group.header, 8, 19), at(&group.details[0], 42, 45)].concat();
            seen.entry(identity).or_default()[usize::from(group.notification() == b"SUP")] += 1;
        }
        for counts in seen.values() {
            self.count_if(counts.contains(&2), "file: two alike");
            self.count_if(counts.iter().any(|count| *count >= 3), "file: three alike");
            self.count_if(!counts.contains(&0), "file: RSP and SUP of one bill");
        }
    }

    fn accepted(&mut self, ledger: &Ledger, group: &Group, kind: &str) {
        let bill = ledger.bills().iter().find(|bill| is_bill(group, bill)).expect("an accepted bill");
        self.count(&format!("{kind} accepted, {}", bill.product.letter() as char));
        self.last_days(ledger.today(), bill, group, kind, "accepted");
    }

    fn rejected(&mut self, ledger: &Ledger, group: &Group, kind: &str, code: &str) {
        let bill = ledger.bills().iter().find(|bill| !group.details.is_empty() && is_bill(group, bill));
        match (kind, code, bill) {
            (_, "BR09", Some(bill)) if bill.cancelled => self.count(&format!("{kind} BR09, cancelled")),
            (_, "BR09", Some(_)) => self.count(&format!("{kind} BR09, issued")),
            ("SUP", "BR05", Some(bill)) if bill.sequence == 999 => self.count("SUP BR05, bill at 999"),
            ("SUP", "BR05", _) => self.count("SUP BR05, sequence not 000"),
            _ => self.count(&format!("{kind} {code}")),
        }
        if let Some(bill) = bill {
            self.last_days(ledger.today(), bill, group, kind, code);
        }
        if code == "BR17" {
            self.form(group);
        }
        for detail in group.details {
            let from = at(detail, 80, 87);
            match from {
                b"        " => self.count(&format!("REJ under {kind}, From Date spaces")),
                b"00000000" => self.count(&format!("REJ under {kind}, From Date zeros")),
                _ if from.iter().all(|byte| b" 0".contains(byte)) => {
                    self.count(&format!("REJ under {kind}, From Date mixed"))
                }
                _ => {}
            }
        }
    }

    fn form(&mut self, group: &Group) {
        let header = group.header;
        self.count_if(group.details.is_empty(), "BR17: no detail");
        self.count_if(group.details.len() > 1, "BR17: several details");
        self.count_if(at(header, 59, 60) != b"01", "BR17: Record Count");
        self.count_if(at(header, 1, 2) != b"34", "BR17: Company");
        self.count_if(digits(at(header, 8, 19)).is_none(), "BR17: account");
        for detail in group.details {
            self.count_if(at(header, 1, 28) != at(detail, 1, 28), "BR17: 1-28 differ");
            self.count_if(at(header, 31, 33) != at(detail, 31, 33), "BR17: 31-33 differ");
            self.count_if(digits(at(detail, 42, 45)).is_none(), "BR17: Bill Key");
        }
    }

    fn state(&mut self, ledger: &Ledger) {
        let bills = ledger.bills();
        self.count_if(bills.len() == BILL_LIMIT, "state: 128 bills");
        self.count_if(bills.iter().any(|bill| (990..=998).contains(&bill.sequence)), "state: sequence 990 to 998");
        self.count_if(bills.iter().any(|bill| bill.sequence == 999), "state: sequence 999");
        self.count_if(bills.iter().any(|bill| bill.requests < bill.sequence), "state: count below sequence");
        self.count_if(ledger.next_numbers().0 == USED_UP, "state: Tracking IDs used up");
        self.count_if(ledger.next_numbers().1 == USED_UP, "state: Confirmation Numbers used up");
    }

    fn lines(&mut self, ledger: &Ledger) {
        for bill in ledger.bills() {
            let open = ledger.is_open(bill);
            self.count(if bill.cancelled {
                "table: C"
            } else if open {
                "table: O"
            } else {
                "table: I"
            });
            self.count_if(
                bill.posted != crate::Posted::None && bill.posted.charge().0 == 0,
                "table: zero charge posted",
            );
        }
    }

    fn count_if(&mut self, condition: bool, label: &str) {
        if condition {
            self.count(label);
        }
    }
}

fn is_bill(group: &Group, bill: &crate::Bill) -> bool {
    let identity = crate::fields::Identity::read(at(group.header, 8, 19), at(&group.details[0], 42, 45));
    identity == Some(bill.identity)
}
