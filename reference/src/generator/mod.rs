//! Makes a journal from a seed: mostly good traffic, with every refusal, code and bad entry mixed in.
//!
//! The maker carries each entry out on a reference ledger as it goes, so that it can aim at a bill's state. What a
//! journal really reaches is counted afterwards from its bytes alone (see `coverage`).

mod calls;
pub mod days;
mod ends;
mod files;
pub mod lines;
mod removals;
mod spoils;

use crate::fields::put_number;
use crate::groups;
use crate::journal::{self, Entry, CANCEL, CLOSE, FILE, REMOVAL, REQUEST};
use crate::ledger::Ledger;
use crate::prng::Prng;

struct Maker {
    rng: Prng,
    journal: Vec<u8>,
    ledger: Ledger,
    rate_codes: Vec<[u8; 5]>,
    accounts: Vec<u64>,
    /// Whether it has removals and SUPs about their last days.
    late: bool,
    /// How often, in percent, a body gets a byte changed at random.
    noise: usize,
}

/// The journal of a seed.
pub fn make(seed: u64) -> Vec<u8> {
    let mut rng = Prng::new(seed);
    if rng.chance(7) {
        return ends::bad_start(&mut rng);
    }
    let theme = rng.below(100);
    let near_end = (45..62).contains(&theme);
    let (first, ledger) = calls::good_fresh(&mut rng, near_end);
    let mut maker = Maker {
        journal: groups::entry(journal::FRESH, &first),
        ledger,
        rate_codes: calls::rate_codes(&mut rng),
        accounts: calls::accounts(&mut rng),
        late: rng.chance(60),
        noise: 1,
        rng,
    };
    maker.play(theme);
    maker.finish();
    maker.journal
}

impl Maker {
    fn play(&mut self, theme: usize) {
        match theme {
            0..=44 => self.traffic(10, 140),
            45..=61 => self.traffic(20, 120), // next numbers near 999,999,999
            62..=71 => {
                self.fill_ledger(115, 145);
                self.traffic(10, 60);
            }
            72..=76 => {
                self.raise_sequences();
                self.traffic(20, 60);
            }
            77..=86 => {
                self.fill_ledger(5, 128);
                for _ in 0..self.rng.range(1, 4) {
                    self.big_file();
                    self.traffic(1, 12);
                }
            }
            _ => {
                self.noise = 25;
                self.traffic(10, 80);
            }
        }
    }

    /// Ordinary days: requests, files, now and then a cancel, a close, a removal or a call that is refused.
    fn traffic(&mut self, least: usize, most: usize) {
        for _ in 0..self.rng.range(least, most) {
            match self.rng.below(if self.late { 115 } else { 100 }) {
                0..=15 => self.new_request(),
                16..=29 => self.renewing_request(),
                30..=38 => self.loose_request(),
                39..=75 => self.file_of_groups(),
                76..=80 => self.file_with_twins(),
                81..=84 => self.bad_file(),
                85..=86 => self.push(FILE, &[]),
                87..=91 => self.cancel(),
                92..=97 => self.close(),
                98..=99 => self.refused_close(),
                100..=105 => self.removal(),
                _ => self.last_day(),
            }
        }
    }

    fn fill_ledger(&mut self, least: usize, most: usize) {
        for _ in 0..self.rng.range(least, most) {
            self.new_request();
        }
    }

    /// Ends as it is, or with a bad entry, or cut off anywhere after fresh.
    fn finish(&mut self) {
        match self.rng.below(100) {
            0..=54 => {}
            55..=61 => {
                let length = self.rng.range(29, self.journal.len());
                self.journal.truncate(length);
            }
            _ => ends::bad_end(&mut self.journal, &mut self.rng),
        }
    }

    /// Adds an entry and carries it out; noise changes a byte of the body first.
    fn push(&mut self, tag: u8, body: &[u8]) {
        let mut body = body.to_vec();
        if !body.is_empty() && self.rng.chance(self.noise) {
            let place = self.rng.below(body.len());
            body[place] = if self.rng.chance(50) { self.rng.range(32, 126) } else { self.rng.below(256) } as u8;
        }
        self.journal.extend(groups::entry(tag, &body));
        let entry = match tag {
            REQUEST => Entry::Request(body[..].try_into().expect("56 bytes")),
            CANCEL => Entry::Cancel(body[..].try_into().expect("16 bytes")),
            CLOSE => Entry::Close(body[..].try_into().expect("8 bytes")),
            REMOVAL => Entry::Removal(body[..].try_into().expect("20 bytes")),
            _ => Entry::File(&body),
        };
        let _ = journal::carry_out(&mut self.ledger, entry, None);
    }

    /// The place of a bill for which `wanted` is true, if there is one.
    fn find_bill(&mut self, wanted: impl Fn(&Ledger, usize) -> bool) -> Option<usize> {
        let places: Vec<usize> = (0..self.ledger.bills().len()).filter(|&place| wanted(&self.ledger, place)).collect();
        if places.is_empty() {
            return None;
        }
        Some(*self.rng.pick(&places))
    }

    fn any_bill(&mut self) -> Option<usize> {
        self.find_bill(|_, _| true)
    }
}

/// Zero-filled digits as bytes of their own.
fn filled<const N: usize>(number: u64) -> [u8; N] {
    let mut field = [0; N];
    put_number(&mut field, number);
    field
}
