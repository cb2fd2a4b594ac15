//! Fresh, requests, cancels and closes: good ones, and ones made to be refused.

use super::{filled, Maker};
use crate::dates::Date;
use crate::journal::{self, CANCEL, CLOSE, REQUEST};
use crate::ledger::{Bill, Ledger, LAST_SEQUENCE};
use crate::prng::Prng;

/// The fields of a request, before they become a body.
pub struct Wish {
    pub rate_code: [u8; 5],
    pub account: u64,
    pub key: u64,
    pub product: u8,
    pub consumption: u64,
    pub scheduled: u32,
}

impl Wish {
    /// A request for a known bill that changes nothing yet.
    pub fn of(bill: &Bill, scheduled: u32) -> Wish {
        Wish {
            rate_code: *bill.rate_code.bytes(),
            account: bill.identity.account(),
            key: bill.identity.key(),
            product: bill.product.letter(),
            consumption: bill.consumption.0,
            scheduled,
        }
    }
}

pub const BAD_DATES: &[&[u8; 8]] = &[
    b"20170229",
    b"19000229",
    b"21000229",
    b"20171301",
    b"20170001",
    b"20170100",
    b"20170132",
    b"20170431",
    b"18991231",
    b"30000101",
    b"00000000",
    b"        ",
    b"2017111 ",
    b"2017-1-1",
    b"99999999",
    b"20171131",
    b"00010101",
];

pub fn good_fresh(rng: &mut Prng, near_end: bool) -> ([u8; 26], Ledger) {
    let edge: &[&[u8; 8]] = &[
        b"19000101",
        b"19000228",
        b"20000228",
        b"20000229",
        b"21000228",
        b"20161231",
        b"29991228",
        b"29991231",
        b"20240229",
        b"20010226",
        b"20170227",
    ];
    let today = if rng.chance(25) { **rng.pick(edge) } else { filled(20171100 + rng.range(1, 30) as u64) };
    let number = |rng: &mut Prng, near: bool| -> u64 {
        if near {
            let back = *rng.pick(&[0, 1, 3, 12, 60, 250]);
            (999_999_999 - rng.below(back + 1)) as u64
        } else {
            *rng.pick(&[1, 1, 7, 123_456_789, 100_000_000])
        }
    };
    let (tracking_near, confirmation_near) = *rng.pick(&[(true, false), (false, true), (true, true)]);
    let mut body = [0; 26];
    body[..8].copy_from_slice(&today);
    body[8..17].copy_from_slice(&filled::<9>(number(rng, near_end && tracking_near)));
    body[17..].copy_from_slice(&filled::<9>(number(rng, near_end && confirmation_near)));
    let ledger = journal::fresh(&body).expect("a good fresh");
    (body, ledger)
}

/// The rate codes of one journal; few, so that bills share them.
pub fn rate_codes(rng: &mut Prng) -> Vec<[u8; 5]> {
    let mut codes = vec![*b"ZZC40", *b"ZZC41", *b"00C00", *b"A9C99", *b"9ZC07"];
    rng.shuffle(&mut codes);
    let length = rng.range(1, 3);
    codes.truncate(length);
    codes
}

/// The accounts of one journal; few, so that they have several bills each.
pub fn accounts(rng: &mut Prng) -> Vec<u64> {
    let mut accounts = vec![123_456_780_019, 123_456_780_018, 0, 999_999_999_999, 1, 100_000_000_000];
    accounts.extend((0..4).map(|_| rng.draw() % 1_000_000_000_000));
    rng.shuffle(&mut accounts);
    let length = rng.range(1, accounts.len());
    accounts.truncate(length);
    accounts
}

impl Maker {
    /// A request for an identity not known yet (or, rarely, by chance a known one).
    pub fn new_request(&mut self) {
        let wish = Wish {
            rate_code: *self.rng.pick(&self.rate_codes),
            account: *self.rng.pick(&self.accounts),
            key: if self.rng.chance(20) { *self.rng.pick(&[0, 1, 7, 9999]) } else { self.rng.below(10_000) as u64 },
            product: *self.rng.pick(b"BP"),
            consumption: self.some_consumption(),
            scheduled: self.due(),
        };
        let body = self.body(&wish);
        self.push(REQUEST, &body);
    }

    /// A request that a known bill takes, unless its sequence is 999 or it is cancelled.
    pub fn renewing_request(&mut self) {
        let Some(place) = self.find_bill(|ledger, place| !ledger.bills()[place].cancelled) else { return };
        let scheduled = self.due();
        let mut wish = Wish::of(&self.ledger.bills()[place], scheduled);
        wish.consumption = self.some_consumption();
        let body = self.body(&wish);
        self.push(REQUEST, &body);
    }

    /// A request with one or several causes against it, so that their order shows.
    pub fn loose_request(&mut self) {
        let last = self.find_bill(|ledger, place| ledger.bills()[place].sequence == LAST_SEQUENCE);
        let place = if self.rng.chance(60) { last.or(self.any_bill()) } else { self.any_bill() };
        let Some(place) = place else { return self.new_request() };
        let scheduled = if self.rng.chance(25) { self.before_today() } else { self.due() };
        let mut wish = Wish::of(&self.ledger.bills()[place], scheduled);
        if self.rng.chance(10) {
            wish.key = self.rng.below(10_000) as u64;
        }
        if self.rng.chance(20) {
            wish.rate_code = *self.rng.pick(&[*b"ZZC40", *b"ZZC41", *b"XXC40"]);
        }
        if self.rng.chance(20) {
            wish.product = if wish.product == b'B' { b'P' } else { b'B' };
        }
        if self.rng.chance(60) {
            wish.consumption = self.some_consumption();
        }
        let mut body = self.body(&wish);
        if self.rng.chance(30) {
            self.spoil_body(&mut body);
        }
        self.push(REQUEST, &body);
    }

    /// Takes one or two bills to a sequence near 999 by requests.
    pub fn raise_sequences(&mut self) {
        for _ in 0..self.rng.range(1, 2) {
            self.new_request();
            let Some(place) = self.ledger.bills().len().checked_sub(1) else { return };
            let goal = self.rng.range(993, 999) as u16;
            // Noise and used up numbers can refuse a request, so the tries are counted.
            for _ in 0..1100 {
                if self.ledger.bills()[place].sequence >= goal {
                    break;
                }
                let today = self.ledger.today().number();
                let mut wish = Wish::of(&self.ledger.bills()[place], today);
                wish.consumption = if wish.consumption == 85 { 86 } else { 85 };
                let body = self.body(&wish);
                self.push(REQUEST, &body);
            }
        }
    }

    pub fn cancel(&mut self) {
        let known = self.any_bill().filter(|_| self.rng.chance(85));
        let (account, key) = match known {
            Some(place) => {
                let identity = self.ledger.bills()[place].identity;
                (identity.account(), identity.key())
            }
            None => (*self.rng.pick(&self.accounts), self.rng.below(10_000) as u64),
        };
        let mut body = [filled::<12>(account).to_vec(), filled::<4>(key).to_vec()].concat();
        if self.rng.chance(12) {
            let place = self.rng.below(16);
            body[place] = *self.rng.pick(b" -A:/\x00\xb1");
        }
        self.push(CANCEL, &body);
    }

    pub fn close(&mut self) {
        let days = *self.rng.pick(&[1, 1, 1, 2, 3, 7, 40]);
        let date = self.after_today(days);
        self.push(CLOSE, &filled::<8>(date.into()));
    }

    pub fn refused_close(&mut self) {
        let today = self.ledger.today().number();
        let date = match self.rng.below(3) {
            0 => **self.rng.pick(BAD_DATES),
            1 => filled(today.into()),
            _ => filled(self.before_today().into()),
        };
        self.push(CLOSE, &date);
    }

    pub fn body(&mut self, wish: &Wish) -> [u8; 56] {
        let mut body = [0; 56];
        body[..5].copy_from_slice(&wish.rate_code);
        body[5..17].copy_from_slice(&filled::<12>(wish.account));
        body[17..21].copy_from_slice(&filled::<4>(wish.key));
        body[21] = wish.product;
        // Billing and From Date may stand in any order.
        let dates = [b"20171113", b"20171013", b"19000101", b"29991231", b"20000229"];
        body[22..30].copy_from_slice(&filled::<8>(self.some_billing().into()));
        body[30..38].copy_from_slice(*self.rng.pick(&dates));
        body[38..48].copy_from_slice(&filled::<10>(wish.consumption));
        body[48..].copy_from_slice(&filled::<8>(wish.scheduled.into()));
        body
    }

    /// Makes one field of a request bad.
    fn spoil_body(&mut self, body: &mut [u8; 56]) {
        let bad_date = **self.rng.pick(BAD_DATES);
        let bad_byte = *self.rng.pick(b" -+./:aZ~\x00\xb1\xff");
        match self.rng.below(8) {
            0 => body[self.rng.below(5)] = *self.rng.pick(b" -z:/@[`\xc3"),
            1 => body[2] = *self.rng.pick(b"cD0 "),
            2 => body[5 + self.rng.below(16)] = bad_byte,
            3 => body[21] = *self.rng.pick(b"bpX 01\x00"),
            4 => body[22..30].copy_from_slice(&bad_date),
            5 => body[30..38].copy_from_slice(&bad_date),
            6 => body[38 + self.rng.below(10)] = bad_byte,
            _ => body[48..].copy_from_slice(&bad_date),
        }
    }

    pub fn some_consumption(&mut self) -> u64 {
        match self.rng.below(20) {
            0 => 0,
            1 => 9_999_999_999,
            2 => self.rng.draw() % 10_000_000_000,
            _ => self.rng.range(1, 300) as u64,
        }
    }

    /// A Scheduled Date: today or a few days on, rarely far on.
    fn due(&mut self) -> u32 {
        if self.rng.chance(4) {
            return 29991231;
        }
        let days = self.rng.below(6);
        self.after_today(days)
    }

    /// Some days after today; the last date of all if there are not so many.
    fn after_today(&mut self, days: usize) -> u32 {
        let mut date = self.ledger.today();
        for _ in 0..days {
            date = Date::next(date).unwrap_or(date);
        }
        date.number()
    }

    /// A date before today, most often the day before; 19000101 has none, and 19000100 is no date.
    fn before_today(&mut self) -> u32 {
        let today = self.ledger.today().number();
        match today % 100 {
            _ if self.rng.chance(10) => 19000101,
            1 if today > 19010000 => today / 10_000 * 10_000 - 10_000 + 1231,
            _ => today - 1,
        }
    }
}
