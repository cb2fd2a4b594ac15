//! Journals for measuring: large, regular, written straight to where they go.

use std::io::{self, Write};

use crate::dates::Date;
use crate::fields::put_number;
use crate::file::{number, text};
use crate::groups::{self, Amounts, Sent};
use crate::journal::{self, Entry, CANCEL, CLOSE, FILE, FRESH, REMOVAL, REQUEST};
use crate::ledger::{Bill, Ledger, BILL_LIMIT};
use crate::prng::Prng;
use crate::verdict::Notification;

const FIRST_DAY: &[u8; 8] = b"19000101";
const LAST_DAY: u32 = 29991231;

/// Writes entries and carries them out on a ledger of its own, so that later ones can answer earlier ones.
pub struct Workload<W> {
    out: W,
    ledger: Ledger,
    rng: Prng,
    /// How many entries were written.
    pub entries: u64,
}

impl<W: Write> Workload<W> {
    /// A fresh and one request for each bill, due so late that they stay open.
    pub fn new(mut out: W, bills: usize) -> io::Result<Self> {
        let mut body = [b'0'; 26];
        body[..8].copy_from_slice(FIRST_DAY);
        body[16] = b'1';
        body[25] = b'1';
        out.write_all(&groups::entry(FRESH, &body))?;
        let ledger = journal::fresh(&body).expect("a good fresh");
        let mut work = Workload { out, ledger, rng: Prng::new(1), entries: 1 };
        for bill in 0..bills {
            work.request(bill, 85, LAST_DAY)?;
        }
        Ok(work)
    }

    /// Requests round and round over 128 bills; from sequence 999 on they are refused with 8.
    pub fn requests(&mut self, count: u64) -> io::Result<()> {
        for turn in 0..count {
            let round = turn / BILL_LIMIT as u64;
            self.request(turn as usize % BILL_LIMIT, 86 + round, LAST_DAY)?;
        }
        Ok(())
    }

    /// Files of so many accepted RSPs, each for a different bill.
    pub fn responses(&mut self, files: u64, groups: usize) -> io::Result<()> {
        let mut places: Vec<usize> = (0..self.ledger.bills().len()).collect();
        let today = self.ledger.today();
        let amounts = Amounts { charge: 4250, applied: 0, owed: 4250, balance: 0 };
        let mut ready: Vec<Sent> =
            self.ledger.bills().iter().map(|b| groups::group(b, Notification::Rsp, amounts, today)).collect();
        let mut file = Vec::new();
        for _ in 0..files {
            file.clear();
            for at in 0..groups {
                let other = self.rng.range(at, places.len() - 1);
                places.swap(at, other);
                let sent = &mut ready[places[at]];
                set_charge(sent, self.rng.range(1, 999_999) as u64);
                file.extend_from_slice(&sent.header);
                file.extend_from_slice(&sent.details[0]);
            }
            // Not carried out: RSPs change nothing that a later RSP must know.
            self.write(FILE, &file)?;
        }
        Ok(())
    }

    /// Days of a hundred entries: requests, RSPs alone and several in a file, a SUP, refusals, a close.
    pub fn mixed(&mut self, entries: u64) -> io::Result<()> {
        while self.entries < entries {
            for turn in 0..100 {
                match turn {
                    0..=9 => self.reopen()?,
                    10..=69 => self.answer(1)?,
                    70..=79 => self.answer(3)?,
                    80..=91 => self.spoilt()?,
                    92..=94 => self.carry(CANCEL, b"9999999999999999")?,
                    95 => self.carry(FILE, &[])?,
                    96..=98 => self.request(7, 85, 19000101)?,
                    _ => self.supplement()?,
                }
            }
            let tomorrow = self.ledger.today().next().map_or(LAST_DAY, Date::number);
            self.carry(CLOSE, &digits8(tomorrow))?;
        }
        Ok(())
    }

    /// Removals of one account after another, on any day of a year.
    pub fn removals(&mut self, count: u64) -> io::Result<()> {
        for turn in 0..count {
            let date = 19000000 + 100 * self.rng.range(1, 12) as u32 + self.rng.range(1, 28) as u32;
            self.removal(turn as usize % BILL_LIMIT, date)?;
        }
        Ok(())
    }

    /// SUPs that come too late, each for one of 128 issued bills: the first half gets BR13, the second BR12.
    pub fn late_supplements(&mut self, files: u64) -> io::Result<()> {
        for bill in 0..BILL_LIMIT {
            self.request(bill, 85, 19000101)?;
            self.removal(bill, 20171001)?;
        }
        for today in [20171201, 20181114] {
            self.carry(CLOSE, &digits8(today))?;
            for _ in 0..files / 2 {
                self.supplement()?;
            }
        }
        Ok(())
    }

    /// Empty files up to so many entries in all: three bytes each.
    pub fn empty_files(&mut self, entries: u64) -> io::Result<()> {
        self.repeat(&groups::entry(FILE, &[]), entries)
    }

    /// Closes on the day that it is already, which are refused with 10, up to so many entries in all.
    pub fn refused_closes(&mut self, entries: u64) -> io::Result<()> {
        self.repeat(&groups::entry(CLOSE, FIRST_DAY), entries)
    }

    /// An entry that changes nothing, over and over.
    fn repeat(&mut self, entry: &[u8], entries: u64) -> io::Result<()> {
        let many = entry.repeat(10_000);
        let mut rest = entries.saturating_sub(self.entries);
        self.entries += rest;
        while rest > 0 {
            let now = rest.min(10_000);
            self.out.write_all(&many[..entry.len() * now as usize])?;
            rest -= now;
        }
        Ok(())
    }

    pub fn flush(&mut self) -> io::Result<()> {
        self.out.flush()
    }

    /// A request that opens some bill for the next three days.
    fn reopen(&mut self) -> io::Result<()> {
        let place = self.rng.below(self.ledger.bills().len());
        let due = (0..3).fold(self.ledger.today(), |date, _| date.next().unwrap_or(date));
        let consumption = self.ledger.bills()[place].consumption.0 % 1000 + 1;
        self.request(place, consumption, due.number())
    }

    /// A file of RSPs for open bills.
    fn answer(&mut self, groups: usize) -> io::Result<()> {
        let open = self.some_bills(true, groups);
        let sent: Vec<Sent> = open.iter().map(|bill| self.group(bill, Notification::Rsp)).collect();
        self.carry(FILE, &groups::file(&sent))
    }

    fn supplement(&mut self) -> io::Result<()> {
        let issued = self.some_bills(false, 1);
        let sent: Vec<Sent> = issued.iter().map(|bill| self.group(bill, Notification::Sup)).collect();
        self.carry(FILE, &groups::file(&sent))
    }

    /// So many bills that are open, or are not, from a random place on.
    fn some_bills(&mut self, open: bool, count: usize) -> Vec<Bill> {
        let start = self.rng.below(self.ledger.bills().len());
        let bills = self.ledger.bills();
        let turned = bills[start..].iter().chain(&bills[..start]);
        turned.filter(|bill| self.ledger.is_open(bill) == open).take(count).cloned().collect()
    }

    /// A group that is rejected by one of several lines.
    fn spoilt(&mut self) -> io::Result<()> {
        let place = self.rng.below(self.ledger.bills().len());
        let bill = self.ledger.bills()[place].clone();
        let mut sent = self.group(&bill, Notification::Rsp);
        match self.rng.below(4) {
            0 => text(&mut sent.header, 59, b"02"),
            1 => number(&mut sent.details[0], 42, 4, 9999),
            2 => text(&mut sent.details[0], 125, b"000000000X"),
            _ => number(&mut sent.details[0], 67, 13, 1),
        }
        self.carry(FILE, &groups::file(&[sent]))
    }

    fn group(&mut self, bill: &Bill, notification: Notification) -> Sent {
        let charge = self.rng.range(1, 999_999) as u64;
        let amounts = Amounts { charge, applied: 0, owed: charge, balance: 0 };
        groups::group(bill, notification, amounts, self.ledger.today())
    }

    /// The bills are Bill Ready and Prepay in turn.
    fn request(&mut self, bill: usize, consumption: u64, due: u32) -> io::Result<()> {
        let mut body = *b"ZZC401234567800190007B2017111320171013000000008520171116";
        put_number(&mut body[5..17], account(bill));
        body[21] = b"BP"[bill % 2];
        put_number(&mut body[38..48], consumption);
        put_number(&mut body[48..], due.into());
        self.carry(REQUEST, &body)
    }

    fn removal(&mut self, bill: usize, date: u32) -> io::Result<()> {
        self.carry(REMOVAL, format!("{:012}{date:08}", account(bill)).as_bytes())
    }

    fn carry(&mut self, tag: u8, body: &[u8]) -> io::Result<()> {
        let entry = match tag {
            REQUEST => Entry::Request(body.try_into().expect("56 bytes")),
            CANCEL => Entry::Cancel(body.try_into().expect("16 bytes")),
            CLOSE => Entry::Close(body.try_into().expect("8 bytes")),
            REMOVAL => Entry::Removal(body.try_into().expect("20 bytes")),
            _ => Entry::File(body),
        };
        let _ = journal::carry_out(&mut self.ledger, entry, None);
        self.write(tag, body)
    }

    fn write(&mut self, tag: u8, body: &[u8]) -> io::Result<()> {
        self.entries += 1;
        let [high, low] = (body.len() as u16).to_be_bytes();
        self.out.write_all(&[tag, high, low])?;
        self.out.write_all(body)
    }
}

fn account(bill: usize) -> u64 {
    123_456_780_000 + bill as u64
}

/// All of the charge in tier 1, none of it prepaid.
fn set_charge(sent: &mut Sent, charge: u64) {
    let detail = &mut sent.details[0];
    number(detail, 67, 13, charge);
    number(detail, 105, 13, charge);
    number(detail, 247, 13, charge);
}

fn digits8(date: u32) -> [u8; 8] {
    let mut field = [0; 8];
    put_number(&mut field, date.into());
    field
}
