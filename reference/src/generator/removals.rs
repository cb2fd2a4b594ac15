//! Removals, Billing Dates, and SUPs sent on their last day or the day after it: a year after the Billing Date, or 60
//! days after the removal date.

use super::calls::{Wish, BAD_DATES};
use super::spoils::TURN;
use super::{filled, Maker};
use crate::calendar::moved;
use crate::dates::Date;
use crate::file::number;
use crate::groups::{self, Sent};
use crate::journal::{CLOSE, FILE, REMOVAL, REQUEST};
use crate::ledger::Bill;
use crate::verdict::Notification;

const FAR_DATES: [u32; 7] = [19000101, 20000229, 20160229, 20171113, 29991101, 29991102, 29991231];

impl Maker {
    /// A removal, most often of a known account, with a date about today or about 60 days before it.
    pub fn removal(&mut self) {
        let known = self.any_bill().filter(|_| self.rng.chance(85));
        let account = match known {
            Some(place) => self.ledger.bills()[place].identity.account(),
            None if self.rng.chance(50) => *self.rng.pick(&self.accounts),
            None => self.rng.draw() % 1_000_000_000_000,
        };
        let days = *self.rng.pick(&[-400, -62, -61, -60, -59, -58, -30, -1, 0, 0, 1, 3, 60, 61]);
        let near = from(self.ledger.today().number(), days);
        let date = if self.rng.chance(20) { *self.rng.pick(&FAR_DATES) } else { near };
        let mut body = removal_body(account, date);
        match self.rng.below(12) {
            0 => body[self.rng.below(12)] = *self.rng.pick(b" -A:/\x00\xb1"),
            1 => body[12..].copy_from_slice(*self.rng.pick(BAD_DATES)),
            _ => {}
        }
        self.push(REMOVAL, &body);
    }

    /// Of the last weeks; where SUPs come late now and then about a year before today, a 29 February or far off.
    pub fn some_billing(&mut self) -> u32 {
        let today = self.ledger.today().number();
        match self.rng.below(if self.late { 20 } else { 12 }) {
            0..=11 => from(today, -(self.rng.below(45) as isize)),
            12..=14 => billed_a_year_before(from(today, self.rng.range(0, 7) as isize - 2)).unwrap_or(today),
            15 => Date::of(today / 40_000 * 40_000 + 229).map_or(today, Date::number),
            16 => *self.rng.pick(&FAR_DATES),
            _ => from(today, self.rng.below(600) as isize - 400),
        }
    }

    /// A SUP on its last day or about it: by the Billing Date of a request, by the bill's own, or by a removal.
    pub fn last_day(&mut self) {
        let issued = self.find_bill(|ledger, place| {
            let bill = &ledger.bills()[place];
            !bill.cancelled && !ledger.is_open(bill)
        });
        let Some(place) = issued.or_else(|| self.any_bill()) else { return self.new_request() };
        // Years that pass by for few of them leave bills for which other lines decide.
        let last = match self.rng.below(20) {
            0..=6 => self.last_by_billing_date(place),
            7..=8 => self.last_by_leap_day(place),
            9 => self.ledger.bills()[place].billing_date.anniversary().map(Date::number),
            _ => self.last_by_removal(place),
        };
        let Some(last) = last else { return };
        let days = *self.rng.pick(&[0, 0, 0, 1, 1, 1, -1, 2]);
        let day = moved(last.into(), days).unwrap_or(last.into());
        if day > u64::from(self.ledger.today().number()) {
            self.push(CLOSE, &filled::<8>(day));
        }
        self.supplement(place);
    }

    /// A request for the bill that makes its last day one of the next.
    fn last_by_billing_date(&mut self, place: usize) -> Option<u32> {
        let last = from(self.ledger.today().number(), self.rng.range(1, 4) as isize);
        self.billed(place, billed_a_year_before(last)?);
        Some(last)
    }

    /// A request for the bill with a 29 February as its Billing Date.
    fn last_by_leap_day(&mut self, place: usize) -> Option<u32> {
        let today = self.ledger.today().number();
        let ends_of_february = (today / 10_000..3000).map(|year| year * 10_000 + 228);
        let last = ends_of_february.filter(|last| *last > today).find(|last| Date::of(last - 9_999).is_some())?;
        self.billed(place, last - 9_999);
        Some(last)
    }

    /// A removal whose day 60 is today or one of the next.
    fn last_by_removal(&mut self, place: usize) -> Option<u32> {
        let last = from(self.ledger.today().number(), self.rng.below(4) as isize);
        let account = self.ledger.bills()[place].identity.account();
        self.push(REMOVAL, &removal_body(account, from(last, -60)));
        Some(last)
    }

    /// Renews the bill with this Billing Date, due today.
    fn billed(&mut self, place: usize, billing: u32) {
        let today = self.ledger.today().number();
        let mut wish = Wish::of(&self.ledger.bills()[place], today);
        wish.consumption = self.some_consumption();
        let mut body = self.body(&wish);
        body[22..30].copy_from_slice(&filled::<8>(billing.into()));
        self.push(REQUEST, &body);
    }

    /// A file with a SUP for the bill, spoilt now and then, and groups for others.
    fn supplement(&mut self, place: usize) {
        let others = *self.rng.pick(&[0, 0, 0, 1, 3]);
        let mut groups = self.some_groups(others);
        let bill = self.ledger.bills()[place].clone();
        let mut sent = self.group(&bill, Notification::Sup);
        if self.rng.chance(15) {
            self.spoil(&mut sent, TURN);
        }
        groups.push(sent);
        self.push(FILE, &groups::file(&groups));
    }

    /// Puts dates into the fields of a SUP that no line reads: the bill's Billing Date, today, far ones.
    pub fn redate(&mut self, sent: &mut Sent, bill: &Bill) {
        let dates = [bill.billing_date.number(), self.ledger.today().number(), 19000101, 29991231];
        for position in [34, 51] {
            number(&mut sent.header, position, 8, u64::from(*self.rng.pick(&dates)));
        }
        for position in [34, 46, 80] {
            number(&mut sent.details[0], position, 8, u64::from(*self.rng.pick(&dates)));
        }
    }
}

/// So many days after a date, or before it; the date itself if there are not so many.
fn from(date: u32, days: isize) -> u32 {
    moved(date.into(), days).map_or(date, |date| date as u32)
}

fn removal_body(account: u64, date: u32) -> [u8; 20] {
    let mut body = [0; 20];
    body[..12].copy_from_slice(&filled::<12>(account));
    body[12..].copy_from_slice(&filled::<8>(date.into()));
    body
}

/// A Billing Date whose last day is this one, if there is one; 29 February where the 28th is its last day.
fn billed_a_year_before(last: u32) -> Option<u32> {
    let leap_day = Some(last - 9_999).filter(|day| day % 10_000 == 229);
    leap_day.and_then(Date::of).or(Date::of(last - 10_000)).map(Date::number)
}
