//! Files: groups for bills in their state, spoilt groups, duplicates, big files, and files that are no files.

use super::spoils::{spoil_digit, Spoil, AMOUNTS, FORM, TURN, WHOSE};
use super::Maker;
use crate::dates::Date;
use crate::fields::{Ccf, Identity, Product, RateCode};
use crate::file::{at, number, text, Record, RECORD_LENGTH};
use crate::groups::{self, Amounts, Sent};
use crate::journal::FILE;
use crate::ledger::{Bill, Posted, LAST_SEQUENCE};
use crate::verdict::Notification;

impl Maker {
    pub fn file_of_groups(&mut self) {
        let count = *self.rng.pick(&[1, 1, 1, 2, 2, 3, 5, 9]);
        let groups = self.some_groups(count);
        self.push(FILE, &groups::file(&groups));
    }

    /// So many groups, for different bills as long as there are some.
    pub fn some_groups(&mut self, count: usize) -> Vec<Sent> {
        let mut places: Vec<usize> = (0..self.ledger.bills().len()).collect();
        self.rng.shuffle(&mut places);
        let again = self.rng.chance(10);
        (0..count)
            .map(|at| match places.get(at) {
                Some(&place) => self.some_group(place),
                None if again && !places.is_empty() => self.some_group(places[at % places.len()]),
                None => self.stranger(),
            })
            .collect()
    }

    /// A file in which one group has one or two twins, some of which do not count as such.
    pub fn file_with_twins(&mut self) {
        let count = self.rng.range(0, 3);
        let mut groups = self.some_groups(count);
        let Some(place) = self.any_bill() else { return };
        for _ in 0..self.rng.range(2, 3) {
            let mut twin = self.good_group(place);
            match self.rng.below(10) {
                0 => self.spoil(&mut twin, FORM),
                1 => self.spoil(&mut twin, &WHOSE[2..]),
                2 => self.spoil(&mut twin, AMOUNTS),
                3 => twin = self.other_kind(place),
                _ => {}
            }
            let at = self.rng.range(0, groups.len());
            groups.insert(at, twin);
        }
        self.push(FILE, &groups::file(&groups));
    }

    /// Up to 200 records: one group for each bill, or headers only, or one header with many details, or a mixture.
    pub fn big_file(&mut self) {
        let mut places: Vec<usize> = (0..self.ledger.bills().len()).collect();
        self.rng.shuffle(&mut places);
        let kind = self.rng.below(6);
        let mut groups: Vec<Sent> = match kind {
            0..=2 => places.into_iter().take(100).map(|place| self.good_group(place)).collect(),
            3 => self.some_groups(200),
            4 => self.some_groups(1),
            _ => self.some_groups(200),
        };
        if kind == 3 {
            groups.iter_mut().for_each(|group| group.details.clear());
        }
        if kind == 4 {
            if let Some(detail) = groups[0].details.first().copied() {
                groups[0].details = vec![detail; 199];
            }
        }
        let mut file = groups::file(&groups);
        file.truncate(200 * RECORD_LENGTH);
        self.push(FILE, &file);
    }

    /// A file refused with 11.
    pub fn bad_file(&mut self) {
        let mut file = groups::file(&self.some_groups(2));
        let records = file.len() / RECORD_LENGTH;
        let start = self.rng.below(records) * RECORD_LENGTH;
        match self.rng.below(8) {
            0 => file.truncate(self.rng.below(file.len())),
            1 => file.extend(vec![b' '; self.rng.range(1, 320)]),
            2 => file[start + self.rng.below(320)] = *self.rng.pick(&[0, 10, 13, 31, 127, 128, 255]),
            3 => file[start + 320] = *self.rng.pick(&[10, 32, 0, 12, 14, 48]),
            4 => file[start + 28..start + 30]
                .copy_from_slice(*self.rng.pick(&[b"03", b"00", b"1 ", b" 1", b"0 ", b"11"])),
            5 => drop(file.drain(..RECORD_LENGTH)),
            6 => file[28..30].copy_from_slice(b"02"),
            // Records one byte short or long move all that follows.
            _ => drop(file.remove(self.rng.below(file.len()))),
        }
        self.push(FILE, &file);
    }

    /// Mostly a group that the bill's state accepts; else one aimed at a line.
    fn some_group(&mut self, place: usize) -> Sent {
        let aim = self.rng.below(100);
        let mut sent = match aim {
            0..=5 => self.other_kind(place),
            6..=9 => self.odd_bill(place),
            10..=12 => self.stranger(),
            _ => self.good_group(place),
        };
        match aim {
            13..=18 => self.spoil(&mut sent, FORM),
            19..=21 => self.spoil(&mut sent, WHOSE),
            22..=28 => self.spoil(&mut sent, TURN),
            29..=42 => self.spoil(&mut sent, AMOUNTS),
            _ => {}
        }
        if self.rng.chance(8) {
            let second = *self.rng.pick(&[FORM, WHOSE, TURN, AMOUNTS]);
            self.spoil(&mut sent, second);
        }
        sent
    }

    /// RSP for an open bill, SUP for another.
    fn good_group(&mut self, place: usize) -> Sent {
        let bill = self.ledger.bills()[place].clone();
        let kind = if self.ledger.is_open(&bill) { Notification::Rsp } else { Notification::Sup };
        self.group(&bill, kind)
    }

    /// The other way round: BR09 or BR11.
    fn other_kind(&mut self, place: usize) -> Sent {
        let bill = self.ledger.bills()[place].clone();
        let kind = if self.ledger.is_open(&bill) { Notification::Sup } else { Notification::Rsp };
        self.group(&bill, kind)
    }

    /// For a bill that is cancelled or at its last sequence, if there is one.
    fn odd_bill(&mut self, place: usize) -> Sent {
        let odd = self.find_bill(|ledger, place| {
            let bill = &ledger.bills()[place];
            bill.cancelled || bill.sequence == LAST_SEQUENCE
        });
        let bill = self.ledger.bills()[odd.unwrap_or(place)].clone();
        let kind = *self.rng.pick(&[Notification::Rsp, Notification::Sup]);
        self.group(&bill, kind)
    }

    /// A group for a bill the ledger does not hold.
    fn stranger(&mut self) -> Sent {
        let account = super::filled::<12>(*self.rng.pick(&self.accounts));
        let key = super::filled::<4>(self.rng.below(10_000) as u64);
        let date = Date::read(b"20171116").expect("a date");
        let bill = Bill {
            identity: Identity::read(&account, &key).expect("digits"),
            rate_code: RateCode::read(&self.rate_codes[0]).expect("a rate code"),
            product: *self.rng.pick(&[Product::BillReady, Product::Prepay]),
            sequence: 1,
            requests: 1,
            cancelled: false,
            posted: Posted::None,
            tracking: 1,
            consumption: Ccf(85),
            billing_date: date,
            from_date: date,
            scheduled_date: date,
            removal_date: None,
        };
        let kind = *self.rng.pick(&[Notification::Rsp, Notification::Sup]);
        self.group(&bill, kind)
    }

    pub fn group(&mut self, bill: &Bill, kind: Notification) -> Sent {
        let charge = self.some_charge();
        let applied = match self.rng.below(4) {
            0 => 0,
            1 => charge,
            _ => self.rng.draw() % (charge + 1),
        };
        let amounts = Amounts { charge, applied, owed: charge - applied, balance: self.some_charge() };
        let mut sent = groups::group(bill, kind, amounts, self.ledger.today());
        self.spread(&mut sent.details[0], 7, 10, bill.consumption.0);
        self.spread(&mut sent.details[0], 17, 13, charge);
        self.litter(&mut sent, bill.product, kind);
        if kind == Notification::Sup && self.rng.chance(40) {
            self.redate(&mut sent, bill);
        }
        sent
    }

    /// Spreads a whole over the four tiers.
    fn spread(&mut self, detail: &mut Record, offset: usize, width: usize, whole: u64) {
        let mut rest = whole;
        for tier in [118, 148, 178] {
            let part = if self.rng.chance(40) { self.rng.draw() % (rest + 1) } else { 0 };
            number(detail, tier + offset, width, part);
            rest -= part;
        }
        number(detail, 88 + offset, width, rest);
    }

    /// Fills fields that no line reads with anything printable.
    fn litter(&mut self, sent: &mut Sent, product: Product, kind: Notification) {
        let detail = &mut sent.details[0];
        let mut places: Vec<(bool, usize, usize)> =
            vec![(true, 34, 41), (true, 42, 50), (true, 51, 58), (true, 74, 320)];
        places.extend([(false, 34, 41), (false, 46, 53), (false, 118, 124), (false, 148, 154), (false, 178, 184)]);
        places.extend([(false, 208, 210), (false, 211, 220), (false, 221, 233), (false, 260, 320)]);
        if product == Product::BillReady {
            places.extend([(true, 61, 73), (false, 234, 246), (false, 247, 259)]);
        }
        for (in_header, from, to) in places {
            let record = if in_header { &mut sent.header } else { &mut *detail };
            match self.rng.below(10) {
                0 | 1 => record[from - 1..to].iter_mut().for_each(|byte| *byte = self.rng.range(32, 126) as u8),
                2 => record[from - 1..to].fill(b' '),
                3 => spoil_digit(record, from, to, &mut self.rng),
                _ => {}
            }
        }
        let mixed = [b"0000 000", b"       0", b"0       ", b"0000000 ", b" 0000000"];
        match self.rng.below(8) {
            0 => text(detail, 80, b"        "),
            1 => text(detail, 80, b"00000000"),
            2 => text(detail, 80, *self.rng.pick(&mixed)),
            3 => spoil_digit(detail, 80, 87, &mut self.rng),
            _ => {}
        }
        if kind == Notification::Sup && self.rng.chance(30) {
            let tracking: Vec<u8> = (0..9).map(|_| self.rng.range(32, 126) as u8).collect();
            text(detail, 20, &tracking);
            text(&mut sent.header, 20, at(detail, 20, 28));
        }
    }

    pub fn spoil(&mut self, sent: &mut Sent, ways: &[Spoil]) {
        // A group without details has nothing more to spoil.
        if !sent.details.is_empty() {
            let way = *self.rng.pick(ways);
            way(sent, &mut self.rng);
        }
    }

    fn some_charge(&mut self) -> u64 {
        match self.rng.below(12) {
            0 => 0,
            1 => 9_999_999_999_999,
            2 => self.rng.draw() % 10_000_000_000_000,
            3 => self.rng.draw() % 10_000_000_000,
            _ => self.rng.range(1, 100_000) as u64,
        }
    }
}
