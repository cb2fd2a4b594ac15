//! The ledger and its calls: fresh, request (also by calendar), file, cancel, close, removal and the two lookups.
//!
//! Each call tries its causes in the documents' order and changes the ledger only when none is true. `out` is the
//! output lent to the call; None stands for the journal's 64,200 bytes that are dropped unread, so nothing is built.

use crate::calendar::business_day;
use crate::cause::Cause;
use crate::dates::Date;
use crate::fields::{self, digits, Ccf, Cents, Identity, Product, RateCode};
use crate::file::{self, Group, FILE_LIMIT, RECORD_LENGTH};
use crate::notices::{self, Stamp, NOTICE_LENGTH};
use crate::request::{CalendarRequest, Request};
use crate::sound::is_sound;
use crate::verdict::{self, Accepted, Code, Notification};

pub const BILL_LIMIT: usize = 128;
pub const LAST_SEQUENCE: u16 = 999;
/// What a next number is once 999,999,999 was taken.
pub const USED_UP: u32 = 1_000_000_000;

/// None counts as zeros; for Bill Ready applied is 0 and owed is the charge.
#[derive(Clone, Copy, Debug, PartialEq, Eq)]
pub enum Posted {
    None,
    BillReady { charge: Cents },
    Prepay { charge: Cents, applied: Cents, owed: Cents },
}

impl Posted {
    pub fn charge(&self) -> Cents {
        self.figures().0
    }

    /// Charge, applied and owed.
    pub fn figures(&self) -> (Cents, Cents, Cents) {
        match *self {
            Posted::None => (Cents(0), Cents(0), Cents(0)),
            Posted::BillReady { charge } => (charge, Cents(0), charge),
            Posted::Prepay { charge, applied, owed } => (charge, applied, owed),
        }
    }
}

#[derive(Clone, Debug, PartialEq, Eq)]
pub struct Bill {
    pub identity: Identity,
    pub rate_code: RateCode,
    pub product: Product,
    pub sequence: u16,
    /// The count of requests.
    pub requests: u16,
    pub cancelled: bool,
    pub posted: Posted,
    /// From here on: as of the latest request.
    pub tracking: u32,
    pub consumption: Ccf,
    pub billing_date: Date,
    pub from_date: Date,
    pub scheduled_date: Date,
    /// Set by a removal only, whatever requests come later; empty before the first.
    pub removal_date: Option<Date>,
}

/// What a request or a cancel returns: the signed change in cents, and the bytes written.
#[derive(Clone, Copy, Debug, PartialEq, Eq)]
pub struct Done {
    pub change: i64,
    pub written: usize,
}

/// What a file returns.
#[derive(Clone, Copy, Debug, Default, PartialEq, Eq)]
pub struct FileDone {
    pub accepted: usize,
    pub rejected: usize,
    pub change: i64,
    pub written: usize,
}

/// What became of a group: the Confirmation Number that it took, and its error code if it was rejected.
pub struct Decided<'a> {
    pub group: Group<'a>,
    pub confirmation: u32,
    pub code: Option<Code>,
}

#[derive(Clone, Debug, PartialEq, Eq)]
pub struct Ledger {
    today: Date,
    next_tracking: u32,
    next_confirmation: u32,
    /// In order of first request.
    bills: Vec<Bill>,
}

impl Ledger {
    /// Fresh. Its change is 0.
    pub fn fresh(today: &[u8], tracking: &[u8], confirmation: &[u8]) -> Result<Ledger, Cause> {
        let today = Date::read(today).ok_or(Cause::BadField)?;
        let next_tracking = next_number(tracking).ok_or(Cause::BadField)?;
        let next_confirmation = next_number(confirmation).ok_or(Cause::BadField)?;
        Ok(Ledger { today, next_tracking, next_confirmation, bills: Vec::new() })
    }

    /// A ledger that came from elsewhere; None if it is not sound.
    pub(crate) fn holding(today: Date, next_tracking: u32, next_confirmation: u32, bills: Vec<Bill>) -> Option<Ledger> {
        let ledger = Ledger { today, next_tracking, next_confirmation, bills };
        is_sound(&ledger).then_some(ledger)
    }

    /// Request. Its arguments are read, so cause 2 is behind it.
    pub fn request(&mut self, request: &Request, out: Option<&mut [u8]>) -> Result<Done, Cause> {
        ask_output(&out, NOTICE_LENGTH)?;
        if request.scheduled_date < self.today {
            return Err(Cause::ScheduledBeforeToday);
        }
        let known = self.place(request.identity);
        match known {
            Some(place) => self.bills[place].ask_renewal(request)?,
            None if self.bills.len() == BILL_LIMIT => return Err(Cause::LedgerFull),
            None => {}
        }
        self.ask_numbers(1, 1)?;
        let stamp = self.take_both();
        let (place, former) = match known {
            Some(place) => (place, self.bills[place].renew(request, stamp.tracking)),
            None => {
                self.bills.push(Bill::new(request, stamp.tracking));
                (self.bills.len() - 1, Ccf(0))
            }
        };
        if let Some(out) = out {
            notices::bil(out, &self.bills[place], former, stamp);
        }
        Ok(Done { change: 0, written: NOTICE_LENGTH })
    }

    /// Request by calendar: the request with the date worked out, counted from today.
    pub fn request_by_calendar(
        &mut self,
        asked: &CalendarRequest,
        holidays: &[u64],
        out: Option<&mut [u8]>,
    ) -> Result<Done, Cause> {
        let scheduled_date = business_day(self.today.number().into(), asked.number, holidays)?;
        self.request(&asked.dated(scheduled_date), out)
    }

    /// File: the groups are decided in order, each on the ledger the one before left.
    pub fn file(&mut self, file: &[u8], out: Option<&mut [u8]>) -> Result<FileDone, Cause> {
        self.file_telling(file, out, |_| {})
    }

    /// File, telling what became of each group, in order; of a file that is refused nothing is told.
    pub fn file_telling(
        &mut self,
        file: &[u8],
        mut out: Option<&mut [u8]>,
        mut tell: impl FnMut(Decided),
    ) -> Result<FileDone, Cause> {
        let groups = file::groups(file::records(file)?);
        ask_output(&out, file.len())?;
        let supplements = groups.iter().filter(|group| group.notification() == b"SUP").count();
        self.ask_numbers(supplements, groups.len())?;
        let claims: Vec<_> = groups.iter().map(verdict::claim).collect();
        let twins = verdict::twins(&claims);
        let mut done = FileDone::default();
        for (group, claim) in groups.iter().zip(claims) {
            let verdict = claim.and_then(|claim| verdict::decide(self, group, claim, &twins));
            tell(Decided { group: *group, confirmation: self.next_confirmation, code: verdict.err() });
            let room = out.as_deref_mut().map(|out| &mut out[done.written..]);
            match verdict {
                Ok(accepted) => {
                    done.accepted += 1;
                    done.change += self.accept(group, accepted, room);
                    done.written += RECORD_LENGTH;
                }
                Err(code) => {
                    done.rejected += 1;
                    self.reject(group, code, room);
                    done.written += group.records() * RECORD_LENGTH;
                }
            }
        }
        Ok(done)
    }

    /// Cancel: marks the bill and clears its posted amounts.
    pub fn cancel(&mut self, account: &[u8], key: &[u8], out: Option<&mut [u8]>) -> Result<Done, Cause> {
        let identity = Identity::read(account, key).ok_or(Cause::BadField)?;
        ask_output(&out, NOTICE_LENGTH)?;
        let place = self.place(identity).ok_or(Cause::NoSuchBill)?;
        if self.bills[place].cancelled {
            return Err(Cause::BillCancelled);
        }
        self.ask_numbers(1, 1)?;
        let stamp = self.take_both();
        let bill = &mut self.bills[place];
        let change = -(bill.posted.charge().0 as i64);
        bill.cancelled = true;
        bill.posted = Posted::None;
        if let Some(out) = out {
            notices::cxl(out, bill, stamp);
        }
        Ok(Done { change, written: NOTICE_LENGTH })
    }

    /// Close of day: how many bills were open before and are not after. Its change is 0.
    pub fn close(&mut self, today: &[u8]) -> Result<usize, Cause> {
        let new = Date::read(today).ok_or(Cause::BadField)?;
        if new <= self.today {
            return Err(Cause::DateNotAfterToday);
        }
        let old = std::mem::replace(&mut self.today, new);
        Ok(self.bills.iter().filter(|bill| bill.is_open(old) && !bill.is_open(new)).count())
    }

    /// Removal: sets the removal date of all bills of an account, cancelled and issued ones too. Its change is 0.
    pub fn removal(&mut self, account: &[u8], date: &[u8]) -> Result<(), Cause> {
        let account = fields::account(account).ok_or(Cause::BadField)?;
        let date = Date::read(date).ok_or(Cause::BadField)?;
        let mut bills = self.bills.iter_mut().filter(|bill| bill.identity.account() == account).peekable();
        bills.peek().ok_or(Cause::NoSuchBill)?;
        bills.for_each(|bill| bill.removal_date = Some(date));
        Ok(())
    }

    /// Lookup, by paper 3: "the one with the earliest Scheduled Date, and of equals the one first requested".
    pub fn open_bill(&self, account: &[u8]) -> Result<usize, Cause> {
        let account = fields::account(account).ok_or(Cause::BadField)?;
        let wanted = |bill: &Bill| bill.identity.account() == account && self.is_open(bill);
        let open = self.bills.iter().enumerate().filter(|(_, bill)| wanted(bill));
        let mut due: Vec<(Date, usize)> = open.map(|(place, bill)| (bill.scheduled_date, place)).collect();
        due.sort();
        due.first().map(|(_, place)| *place).ok_or(Cause::NoSuchBill)
    }

    /// Lookup: charge, applied and owed of one bill.
    pub fn amounts(&self, account: &[u8], key: &[u8]) -> Result<(Cents, Cents, Cents), Cause> {
        let identity = Identity::read(account, key).ok_or(Cause::BadField)?;
        let place = self.place(identity).ok_or(Cause::NoSuchBill)?;
        Ok(self.bills[place].posted.figures())
    }

    pub fn today(&self) -> Date {
        self.today
    }

    pub fn bills(&self) -> &[Bill] {
        &self.bills
    }

    /// The next Tracking ID and the next Confirmation Number.
    pub fn next_numbers(&self) -> (u32, u32) {
        (self.next_tracking, self.next_confirmation)
    }

    pub fn place(&self, identity: Identity) -> Option<usize> {
        self.bills.iter().position(|bill| bill.identity == identity)
    }

    pub fn is_open(&self, bill: &Bill) -> bool {
        bill.is_open(self.today)
    }

    /// The posted total: the sum of the charges.
    pub fn total(&self) -> Cents {
        Cents(self.bills.iter().map(|bill| bill.posted.charge().0).sum())
    }

    /// The group's amounts replace the posted ones; a SUP also raises the sequence and takes a Tracking ID.
    fn accept(&mut self, group: &Group, accepted: Accepted, out: Option<&mut [u8]>) -> i64 {
        let confirmation = self.take_confirmation();
        let mut stamp = Stamp { tracking: 0, confirmation, today: self.today };
        let bill = &mut self.bills[accepted.place];
        let change = accepted.posted.charge().0 as i64 - bill.posted.charge().0 as i64;
        bill.posted = accepted.posted;
        if accepted.notification == Notification::Sup {
            bill.sequence += 1;
            stamp.tracking = self.next_tracking;
            self.next_tracking += 1;
        }
        if let Some(out) = out {
            notices::acf(out, group, accepted.notification, bill, stamp);
        }
        change
    }

    fn reject(&mut self, group: &Group, code: Code, out: Option<&mut [u8]>) {
        let confirmation = self.take_confirmation();
        if let Some(out) = out {
            notices::rej(out, group, code, confirmation, self.today);
        }
    }

    /// 12 if fewer numbers are left than the call needs.
    fn ask_numbers(&self, trackings: usize, confirmations: usize) -> Result<(), Cause> {
        let left = |next: u32| (USED_UP - next) as usize;
        if left(self.next_tracking) < trackings || left(self.next_confirmation) < confirmations {
            return Err(Cause::NumbersUsedUp);
        }
        Ok(())
    }

    fn take_confirmation(&mut self) -> u32 {
        self.next_confirmation += 1;
        self.next_confirmation - 1
    }

    fn take_both(&mut self) -> Stamp {
        let tracking = self.next_tracking;
        self.next_tracking += 1;
        Stamp { tracking, confirmation: self.take_confirmation(), today: self.today }
    }
}

impl Bill {
    fn new(request: &Request, tracking: u32) -> Bill {
        Bill {
            identity: request.identity,
            rate_code: request.rate_code,
            product: request.product,
            sequence: 1,
            requests: 1,
            cancelled: false,
            posted: Posted::None,
            tracking,
            consumption: request.consumption,
            billing_date: request.billing_date,
            from_date: request.from_date,
            scheduled_date: request.scheduled_date,
            removal_date: None,
        }
    }

    /// Causes 5, 6, 7 and 8 of a request for a known bill.
    fn ask_renewal(&self, request: &Request) -> Result<(), Cause> {
        if self.cancelled {
            Err(Cause::BillCancelled)
        } else if self.rate_code != request.rate_code || self.product != request.product {
            Err(Cause::NotTheBills)
        } else if self.consumption == request.consumption {
            Err(Cause::ConsumptionUnchanged)
        } else if self.sequence == LAST_SEQUENCE {
            Err(Cause::LastSequence)
        } else {
            Ok(())
        }
    }

    /// Takes the new values; posted amounts and removal date stay. Hands back the former consumption.
    fn renew(&mut self, request: &Request, tracking: u32) -> Ccf {
        self.sequence += 1;
        self.requests += 1;
        self.tracking = tracking;
        self.billing_date = request.billing_date;
        self.from_date = request.from_date;
        self.scheduled_date = request.scheduled_date;
        std::mem::replace(&mut self.consumption, request.consumption)
    }

    /// Not cancelled, and today is at or before the Scheduled Date.
    pub fn is_open(&self, today: Date) -> bool {
        !self.cancelled && today <= self.scheduled_date
    }
}

/// A next number that fresh takes: nine digits, not 0.
fn next_number(field: &[u8]) -> Option<u32> {
    if field.len() != 9 {
        return None;
    }
    digits(field).filter(|&number| number > 0).map(|number| number as u32)
}

/// 1 if the output is shorter than the call may need.
fn ask_output(out: &Option<&mut [u8]>, needed: usize) -> Result<(), Cause> {
    let length = out.as_ref().map_or(FILE_LIMIT, |out| out.len());
    if length < needed {
        return Err(Cause::OutputTooShort);
    }
    Ok(())
}
