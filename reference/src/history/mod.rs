//! The sum from history: worked out from fresh's arguments and the list of calls alone.
//!
//! It asks the ledger nothing and shares none of its code but what a date is and which one follows it: fields stay the
//! bytes they came as, and every rule is a row of a list whose first true row counts. Slow, plain, and a second opinion
//! on every verdict, every business day and every last day for a SUP.

mod days;

use crate::dates::Date;
use days::{are_holidays, further, is_over_a_year, is_over_sixty_days};

/// A call after fresh, with its fields as they stand in a journal.
#[derive(Clone, Copy, Debug)]
pub enum Call<'a> {
    Request(&'a [u8; 56]),
    /// A request without its Scheduled Date, which is so many business days from today, and the holidays.
    Calendar(&'a [u8; 48], u64, &'a [u64]),
    File(&'a [u8]),
    Cancel(&'a [u8; 16]),
    Close(&'a [u8; 8]),
    Removal(&'a [u8; 20]),
}

/// Every field of a bill but the posted amounts, and but the From Date, which no rule reads.
struct PastBill {
    identity: Vec<u8>,
    rate_code: Vec<u8>,
    product: u8,
    sequence: u32,
    requests: u32,
    cancelled: bool,
    tracking: u64,
    consumption: Vec<u8>,
    billing: Vec<u8>,
    scheduled: Vec<u8>,
    removal: Option<Vec<u8>>,
}

pub struct History {
    today: Vec<u8>,
    tracking: u64,
    confirmation: u64,
    bills: Vec<PastBill>,
    /// A bill's place and a charge.
    postings: Vec<(usize, u64)>,
    /// The code of each group of the last file carried out; None for an accepted one.
    verdicts: Vec<Option<u8>>,
}

const END_OF_NUMBERS: u64 = 1_000_000_000;

impl History {
    /// None if fresh is refused.
    pub fn fresh(body: &[u8; 26]) -> Option<History> {
        let (today, tracking, confirmation) = (&body[..8], &body[8..17], &body[17..]);
        let good = is_date(today) && is_next_number(tracking) && is_next_number(confirmation);
        good.then(|| History {
            today: today.to_vec(),
            tracking: value(tracking),
            confirmation: value(confirmation),
            bills: Vec::new(),
            postings: Vec::new(),
            verdicts: Vec::new(),
        })
    }

    /// Takes the next call of the list; returns its cause, if it has one.
    pub fn call(&mut self, call: Call, output: usize) -> Option<u8> {
        match call {
            Call::Request(body) => self.request(body, output),
            Call::Calendar(body, number, holidays) => self.by_calendar(body, number, holidays, output),
            Call::File(file) => self.file(file, output),
            Call::Cancel(body) => self.cancel(body, output),
            Call::Close(body) => self.close(body),
            Call::Removal(body) => self.removal(body),
        }
    }

    /// For each bill the charge of its last posting; 0 if there is none or the bill is cancelled.
    pub fn sum(&self) -> u64 {
        let last = |place: usize| self.postings.iter().rev().find(|posting| posting.0 == place);
        let charge = |place: usize| if self.bills[place].cancelled { 0 } else { last(place).map_or(0, |p| p.1) };
        (0..self.bills.len()).map(charge).sum()
    }

    /// The code of each group of the last file carried out; None for an accepted one.
    pub fn verdicts(&self) -> &[Option<u8>] {
        &self.verdicts
    }

    fn find(&self, identity: &[u8]) -> Option<usize> {
        self.bills.iter().position(|bill| bill.identity == identity)
    }

    fn lacks(&self, trackings: u64, confirmations: u64) -> bool {
        self.tracking + trackings > END_OF_NUMBERS || self.confirmation + confirmations > END_OF_NUMBERS
    }

    fn request(&mut self, body: &[u8; 56], output: usize) -> Option<u8> {
        let (rate_code, identity, product) = (&body[..5], &body[5..21], body[21]);
        let (consumption, scheduled) = (&body[38..48], &body[48..]);
        let place = self.find(identity);
        let bill = place.map(|place| &self.bills[place]);
        let known = |test: &dyn Fn(&PastBill) -> bool| bill.is_some_and(test);
        let cause = first(&[
            (has_bad_field(body), 2),
            (output < 642, 1),
            // Dates of eight digits stand in the order of their bytes.
            (scheduled < &self.today[..], 9),
            (known(&|bill| bill.cancelled), 5),
            (known(&|bill| bill.rate_code != rate_code || bill.product != product), 6),
            (known(&|bill| bill.consumption == consumption), 7),
            (known(&|bill| bill.sequence == 999), 8),
            (bill.is_none() && self.bills.len() >= 128, 3),
            (self.lacks(1, 1), 12),
        ]);
        if cause.is_none() {
            self.add_or_renew(place, body);
        }
        cause
    }

    /// Carried out as the request with the date worked out.
    fn by_calendar(&mut self, body: &[u8; 48], number: u64, holidays: &[u64], output: usize) -> Option<u8> {
        let day = further(&self.today, number, holidays);
        let mut dated = [0; 56];
        dated[..48].copy_from_slice(body);
        dated[48..].copy_from_slice(day.as_ref().unwrap_or(&self.today));
        let cause =
            first(&[(has_bad_field(&dated) || number > 9, 2), (!are_holidays(holidays), 14), (day.is_none(), 15)]);
        cause.or_else(|| self.request(&dated, output))
    }

    fn add_or_renew(&mut self, place: Option<usize>, body: &[u8; 56]) {
        let (sequence, requests) = place.map_or((0, 0), |place| {
            let bill = &self.bills[place];
            (bill.sequence, bill.requests)
        });
        let bill = PastBill {
            identity: body[5..21].to_vec(),
            rate_code: body[..5].to_vec(),
            product: body[21],
            sequence: sequence + 1,
            requests: requests + 1,
            cancelled: false,
            tracking: self.tracking,
            consumption: body[38..48].to_vec(),
            billing: body[22..30].to_vec(),
            scheduled: body[48..].to_vec(),
            removal: place.and_then(|place| self.bills[place].removal.clone()),
        };
        match place {
            Some(place) => self.bills[place] = bill,
            None => self.bills.push(bill),
        }
        self.tracking += 1;
        self.confirmation += 1;
    }

    fn cancel(&mut self, body: &[u8; 16], output: usize) -> Option<u8> {
        let place = self.find(body);
        let cancelled = place.is_some_and(|place| self.bills[place].cancelled);
        let cause = first(&[
            (!numeric(body), 2),
            (output < 642, 1),
            (place.is_none(), 4),
            (cancelled, 5),
            (self.lacks(1, 1), 12),
        ]);
        if let (None, Some(place)) = (cause, place) {
            self.bills[place].cancelled = true;
            self.tracking += 1;
            self.confirmation += 1;
        }
        cause
    }

    fn close(&mut self, date: &[u8; 8]) -> Option<u8> {
        let cause = first(&[(!is_date(date), 2), (date[..] <= self.today[..], 10)]);
        if cause.is_none() {
            self.today = date.to_vec();
        }
        cause
    }

    fn removal(&mut self, body: &[u8; 20]) -> Option<u8> {
        let (account, date) = body.split_at(12);
        let places: Vec<usize> =
            (0..self.bills.len()).filter(|at| self.bills[*at].identity.starts_with(account)).collect();
        let cause = first(&[(!numeric(account) || !is_date(date), 2), (places.is_empty(), 4)]);
        if cause.is_none() {
            places.into_iter().for_each(|at| self.bills[at].removal = Some(date.to_vec()));
        }
        cause
    }

    fn file(&mut self, file: &[u8], output: usize) -> Option<u8> {
        let groups = split(file);
        let supplements = groups.iter().filter(|group| &group[0][30..33] == b"SUP").count() as u64;
        let cause = first(&[
            (!file_is_good(file), 11),
            (output < file.len(), 1),
            (self.lacks(supplements, groups.len() as u64), 12),
        ]);
        if cause.is_none() {
            self.verdicts.clear();
            for place in 0..groups.len() {
                let code = self.group(&groups, place);
                self.verdicts.push(code);
                self.confirmation += 1;
            }
        }
        cause
    }

    /// Decides one group of a file; an accepted one adds a posting. Returns its code, if it has one.
    fn group(&mut self, groups: &[Vec<&[u8]>], place: usize) -> Option<u8> {
        if let Some(code) = opening(&groups[place]) {
            return Some(code);
        }
        let (header, detail) = (groups[place][0], groups[place][1]);
        if (0..groups.len()).any(|other| other != place && same_claim(&groups[other], &groups[place])) {
            return Some(14);
        }
        let identity = [&header[7..19], &detail[41..45]].concat();
        let Some(bill) = self.find(&identity) else { return Some(16) };
        let code = self.later_lines(&self.bills[bill], header, detail);
        if code.is_none() {
            self.postings.push((bill, value(&detail[66..79])));
            if &header[30..33] == b"SUP" {
                self.bills[bill].sequence += 1;
                self.tracking += 1;
            }
        }
        code
    }

    /// Lines 5 to 10 for a group that names this bill.
    fn later_lines(&self, bill: &PastBill, header: &[u8], detail: &[u8]) -> Option<u8> {
        let field = |from: usize, to: usize| &detail[from - 1..to];
        let rsp = &header[30..33] == b"RSP";
        let open = !bill.cancelled && self.today <= bill.scheduled;
        let sequence = format!("{:03}", bill.sequence).into_bytes();
        let tracking = format!("{:09}", bill.tracking).into_bytes();
        let prepay = bill.product == b'P';
        let tiers = |from: usize, to: usize| [88, 118, 148, 178].map(|tier| field(tier + from, tier + to));
        let off = |parts: [&[u8]; 4], whole: &[u8]| {
            !parts.iter().all(|part| numeric(part)) || parts.iter().map(|p| value(p)).sum::<u64>() != value(whole)
        };
        first(&[
            (header[2..7] != bill.rate_code[..], 7),
            (rsp && !open, 9),
            (rsp && field(20, 28) != tracking, 1),
            (rsp && field(54, 56) != sequence, 5),
            (!rsp && bill.cancelled, 9),
            (!rsp && open, 11),
            (!rsp && is_over_a_year(&self.today, &bill.billing), 12),
            (!rsp && bill.removal.as_ref().is_some_and(|removal| is_over_sixty_days(&self.today, removal)), 13),
            (!rsp && (field(54, 56) != b"000" || bill.sequence == 999), 5),
            (!numeric(field(57, 66)), 8),
            (field(57, 66) != bill.consumption, 6),
            (!numeric(field(67, 79)), 10),
            (prepay && !numeric(&header[60..73]), 21),
            (prepay && !numeric(field(234, 246)), 22),
            (prepay && !numeric(field(247, 259)), 23),
            (!numeric(field(88, 94)), 24),
            (off(tiers(7, 16), field(57, 66)), 25),
            (off(tiers(17, 29), field(67, 79)), 26),
            (prepay && value(field(234, 246)).wrapping_add(value(field(247, 259))) != value(field(67, 79)), 20),
        ])
    }
}

fn has_bad_field(body: &[u8; 56]) -> bool {
    !is_rate_code(&body[..5])
        || !numeric(&body[5..21])
        || !b"BP".contains(&body[21])
        || !numeric(&body[38..48])
        || ![&body[22..30], &body[30..38], &body[48..]].into_iter().all(is_date)
}

/// Lines 1 and 2.
fn opening(group: &[&[u8]]) -> Option<u8> {
    let [header, detail] = group else { return Some(17) };
    first(&[
        (&header[58..60] != b"01", 17),
        (&header[..2] != b"34", 17),
        (header[..28] != detail[..28], 17),
        (header[30..33] != detail[30..33], 17),
        (!numeric(&header[7..19]) || !numeric(&detail[41..45]), 17),
        (&header[30..33] != b"RSP" && &header[30..33] != b"SUP", 19),
    ])
}

/// Line 3's condition on another group, which must itself pass lines 1 and 2.
fn same_claim(other: &[&[u8]], group: &[&[u8]]) -> bool {
    opening(other).is_none()
        && other[0][30..33] == group[0][30..33]
        && other[0][7..19] == group[0][7..19]
        && other[1][41..45] == group[1][41..45]
}

/// The groups of a file, good or not; a record cut short is left out, a first detail counts as a header.
fn split(file: &[u8]) -> Vec<Vec<&[u8]>> {
    let mut groups: Vec<Vec<&[u8]>> = Vec::new();
    for record in file.chunks_exact(321) {
        match groups.last_mut() {
            Some(group) if &record[28..30] != b"01" => group.push(record),
            _ => groups.push(vec![record]),
        }
    }
    groups
}

fn file_is_good(file: &[u8]) -> bool {
    let byte_is_good = |(place, byte): (usize, &u8)| match place % 321 {
        320 => *byte == 13,
        _ => (b' '..=b'~').contains(byte),
    };
    let types: Vec<&[u8]> = file.chunks_exact(321).map(|record| &record[28..30]).collect();
    file.len() % 321 == 0
        && file.len() <= 64_200
        && file.iter().enumerate().all(byte_is_good)
        && types.iter().all(|kind| *kind == b"01" || *kind == b"02")
        && (file.is_empty() || types[0] == b"01")
}

/// The number of the first true row.
fn first(rows: &[(bool, u8)]) -> Option<u8> {
    rows.iter().find(|row| row.0).map(|row| row.1)
}

fn numeric(field: &[u8]) -> bool {
    field.iter().all(u8::is_ascii_digit)
}

/// The value of a numeric field; anything for another, whose row comes first.
fn value(field: &[u8]) -> u64 {
    field.iter().fold(0, |sum: u64, byte| sum.wrapping_mul(10).wrapping_add(u64::from(byte.wrapping_sub(b'0'))))
}

fn is_date(field: &[u8]) -> bool {
    Date::read(field).is_some()
}

fn is_next_number(field: &[u8]) -> bool {
    numeric(field) && value(field) != 0
}

fn is_rate_code(code: &[u8]) -> bool {
    let marketer = |byte: &u8| byte.is_ascii_uppercase() || byte.is_ascii_digit();
    code[..2].iter().all(marketer) && code[2] == b'C' && numeric(&code[3..])
}
