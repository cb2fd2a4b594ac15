//! The verdict on a group: lines 1 to 10, the first true condition gives the code.

use crate::dates::Date;
use crate::fields::{digits, Ccf, Cents, Identity, Product};
use crate::file::{at, Group, Record};
use crate::ledger::{Bill, Ledger, Posted};

/// A SUP passes up to so many days past the removal date.
const REMOVAL_DAYS: usize = 60;

/// The error codes in use; BR02 to BR04, BR15 and BR18 are left out.
#[derive(Clone, Copy, Debug, PartialEq, Eq)]
#[rustfmt::skip]
pub enum Code {
    BR01 = 1, BR05 = 5, BR06, BR07, BR08, BR09, BR10, BR11, BR12, BR13, BR14, BR16 = 16, BR17, BR19 = 19,
    BR20, BR21, BR22, BR23, BR24, BR25, BR26,
}

impl Code {
    pub fn text(self) -> [u8; 4] {
        let number = self as u8;
        [b'B', b'R', b'0' + number / 10, b'0' + number % 10]
    }
}

#[derive(Clone, Copy, Debug, PartialEq, Eq, PartialOrd, Ord)]
pub enum Notification {
    Rsp,
    Sup,
}

/// What a group that passes lines 1 and 2 speaks of; two groups with the same claim are duplicates.
#[derive(Clone, Copy, Debug, PartialEq, Eq, PartialOrd, Ord)]
pub struct Claim {
    pub notification: Notification,
    pub identity: Identity,
}

/// No line true: the bill's place, and the amounts that replace the posted ones.
#[derive(Clone, Copy, Debug, PartialEq, Eq)]
pub struct Accepted {
    pub place: usize,
    pub notification: Notification,
    pub posted: Posted,
}

/// Lines 1 (BR17) and 2 (BR19).
pub fn claim(group: &Group) -> Result<Claim, Code> {
    let [detail] = group.details else { return Err(Code::BR17) };
    let header = group.header;
    let formed = at(header, 59, 60) == b"01"
        && at(header, 1, 2) == b"34"
        && at(header, 1, 28) == at(detail, 1, 28)
        && at(header, 31, 33) == at(detail, 31, 33);
    if !formed {
        return Err(Code::BR17);
    }
    let identity = Identity::read(at(header, 8, 19), at(detail, 42, 45)).ok_or(Code::BR17)?;
    let notification = match at(header, 31, 33) {
        b"RSP" => Notification::Rsp,
        b"SUP" => Notification::Sup,
        _ => return Err(Code::BR19),
    };
    Ok(Claim { notification, identity })
}

/// The claims that more than one group of the file makes (line 3).
pub fn twins(claims: &[Result<Claim, Code>]) -> Vec<Claim> {
    let mut sorted: Vec<Claim> = claims.iter().flatten().copied().collect();
    sorted.sort_unstable();
    sorted.windows(2).filter(|pair| pair[0] == pair[1]).map(|pair| pair[0]).collect()
}

/// Lines 3 to 10, for a group that made `claim`, on the ledger the group before left.
pub fn decide(ledger: &Ledger, group: &Group, claim: Claim, twins: &[Claim]) -> Result<Accepted, Code> {
    if twins.contains(&claim) {
        return Err(Code::BR14);
    }
    let place = ledger.place(claim.identity).ok_or(Code::BR16)?;
    let bill = &ledger.bills()[place];
    let (header, detail) = (group.header, &group.details[0]);
    if at(header, 3, 7) != bill.rate_code.bytes() {
        return Err(Code::BR07);
    }
    match claim.notification {
        Notification::Rsp => response_line(bill, ledger.is_open(bill), detail)?,
        Notification::Sup => supplement_line(bill, ledger.today(), detail)?,
    }
    let posted = amounts(bill, header, detail)?;
    Ok(Accepted { place, notification: claim.notification, posted })
}

/// Line 6 for RSP.
fn response_line(bill: &Bill, open: bool, detail: &Record) -> Result<(), Code> {
    if !open {
        Err(Code::BR09)
    } else if digits(at(detail, 20, 28)) != Some(u64::from(bill.tracking)) {
        Err(Code::BR01)
    } else if digits(at(detail, 54, 56)) != Some(u64::from(bill.sequence)) {
        Err(Code::BR05)
    } else {
        Ok(())
    }
}

/// Line 6 for SUP, with BR12 and BR13 of paper 2. Its Tracking ID is read by line 1 only.
fn supplement_line(bill: &Bill, today: Date, detail: &Record) -> Result<(), Code> {
    // A last day after 29991231 never comes.
    let over = |last: Option<Date>| last.is_some_and(|last| today > last);
    if bill.cancelled {
        Err(Code::BR09)
    } else if bill.is_open(today) {
        Err(Code::BR11)
    } else if over(bill.billing_date.anniversary()) {
        Err(Code::BR12)
    } else if over(bill.removal_date.and_then(|removed| removed.later(REMOVAL_DAYS))) {
        Err(Code::BR13)
    } else if at(detail, 54, 56) != b"000" || bill.sequence == 999 {
        Err(Code::BR05)
    } else {
        Ok(())
    }
}

/// Lines 7 to 10, and the amounts of a group that passes them.
fn amounts(bill: &Bill, header: &Record, detail: &Record) -> Result<Posted, Code> {
    let consumption = digits(at(detail, 57, 66)).map(Ccf).ok_or(Code::BR08)?;
    if consumption != bill.consumption {
        return Err(Code::BR06);
    }
    let charge = digits(at(detail, 67, 79)).map(Cents).ok_or(Code::BR10)?;
    match bill.product {
        Product::BillReady => {
            tier_lines(detail, consumption, charge)?;
            Ok(Posted::BillReady { charge })
        }
        Product::Prepay => {
            // The balance only has to be digits; it is stored nowhere.
            digits(at(header, 61, 73)).ok_or(Code::BR21)?;
            let applied = digits(at(detail, 234, 246)).map(Cents).ok_or(Code::BR22)?;
            let owed = digits(at(detail, 247, 259)).map(Cents).ok_or(Code::BR23)?;
            tier_lines(detail, consumption, charge)?;
            if applied.0 + owed.0 != charge.0 {
                return Err(Code::BR20);
            }
            Ok(Posted::Prepay { charge, applied, owed })
        }
    }
}

/// Line 9. A tier is rate 7, consumption 10, charge 13; only tier 1's rate is read.
fn tier_lines(detail: &Record, consumption: Ccf, charge: Cents) -> Result<(), Code> {
    const TIERS: [usize; 4] = [88, 118, 148, 178];
    digits(at(detail, 88, 94)).ok_or(Code::BR24)?;
    // A sum of Options is None if one field is not numeric. Four fields of 13 digits cannot overflow.
    let consumptions: Option<u64> = TIERS.iter().map(|tier| digits(at(detail, tier + 7, tier + 16))).sum();
    if consumptions != Some(consumption.0) {
        return Err(Code::BR25);
    }
    let charges: Option<u64> = TIERS.iter().map(|tier| digits(at(detail, tier + 17, tier + 29))).sum();
    if charges != Some(charge.0) {
        return Err(Code::BR26);
    }
    Ok(())
}
