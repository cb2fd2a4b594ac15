//! What removals meet, and how near a SUP comes to its last day: the anniversary of its Billing Date, or day 60 after
//! the removal date. Both days are looked up in the table of all dates.

use super::Coverage;
use crate::calendar::moved;
use crate::dates::Date;
use crate::fields::{account, Identity};
use crate::file::{at, Group};
use crate::ledger::{Bill, Ledger};

/// The labels counted here.
pub const LABELS: &[&str] = &[
    "2: account of a removal",
    "2: date of a removal",
    "removal: one bill",
    "removal: several bills",
    "removal: not all bills",
    "removal: open bill",
    "removal: issued bill",
    "removal: cancelled bill",
    "removal: first date of a bill",
    "removal: replaces a date",
    "removal: date before today",
    "removal: date is today",
    "removal: date after today",
    "removal: kept by a renewed bill",
    "removal: none for a new bill of the account",
    "SUP accepted on the anniversary",
    "SUP accepted on 28 February, billed on the 29th",
    "SUP accepted on day 60",
    "SUP accepted, removal date after today",
    "SUP accepted, over a year by the group's Billing Date",
    "SUP accepted, billed in 2999",
    "SUP accepted, day 60 after 29991231",
    "SUP BR12 the day after the anniversary",
    "SUP BR12 on 1 March, billed on 29 February",
    "SUP BR12, in time by the group's Billing Date",
    "SUP BR12, BR13 true too",
    "SUP BR12, BR05 true too",
    "SUP BR13 on day 61",
    "SUP BR13, BR05 true too",
    "SUP BR11, BR12 true too",
    "SUP BR11, BR13 true too",
    "SUP BR09, BR12 true too",
    "SUP BR09, BR13 true too",
    "RSP accepted, BR12 true for a SUP",
    "RSP accepted, BR13 true for a SUP",
];

impl Coverage {
    /// Counts a removal that was carried out, by the ledger before it.
    pub(super) fn removal(&mut self, before: &Ledger, body: &[u8; 20]) {
        let (date, today) = (Date::read(&body[12..]), Some(before.today()));
        let of_account = |bill: &&Bill| Some(bill.identity.account()) == account(&body[..12]);
        let bills: Vec<&Bill> = before.bills().iter().filter(of_account).collect();
        self.count(if bills.len() > 1 { "removal: several bills" } else { "removal: one bill" });
        self.count_if(bills.len() < before.bills().len(), "removal: not all bills");
        for bill in bills {
            self.count(match bill.cancelled {
                true => "removal: cancelled bill",
                false if before.is_open(bill) => "removal: open bill",
                false => "removal: issued bill",
            });
            let first = bill.removal_date.is_none();
            self.count(if first { "removal: first date of a bill" } else { "removal: replaces a date" });
        }
        self.count_if(date < today, "removal: date before today");
        self.count_if(date == today, "removal: date is today");
        self.count_if(date > today, "removal: date after today");
    }

    pub(super) fn bad_removal(&mut self, body: &[u8; 20]) {
        self.count_if(account(&body[..12]).is_none(), "2: account of a removal");
        self.count_if(Date::read(&body[12..]).is_none(), "2: date of a removal");
    }

    /// Counts a request that was carried out, by the ledger after it.
    pub(super) fn requested(&mut self, after: &Ledger, body: &[u8; 56], new: bool) {
        let identity = Identity::read(&body[5..17], &body[17..21]).expect("a good request");
        let removed = |bill: &&Bill| bill.removal_date.is_some();
        let mut bills = after.bills().iter().filter(removed);
        if new {
            let beside = bills.any(|bill| bill.identity.account() == identity.account());
            self.count_if(beside, "removal: none for a new bill of the account");
        } else {
            self.count_if(bills.any(|bill| bill.identity == identity), "removal: kept by a renewed bill");
        }
    }

    /// Counts a group for a known bill by its code, or by "accepted".
    pub(super) fn last_days(&mut self, today: Date, bill: &Bill, group: &Group, kind: &str, outcome: &str) {
        let today = u64::from(today.number());
        let removal = bill.removal_date.map(|date| u64::from(date.number()));
        let (year, sixty) = (anniversary(bill.billing_date), removal.and_then(|date| moved(date, 60)));
        let of_group = Date::read(at(&group.details[0], 46, 53)).and_then(anniversary);
        let over = |last: Option<u64>| last.is_some_and(|last| today > last);
        let first_over = |last: Option<u64>| last.and_then(|last| moved(last, 1)) == Some(today);
        let leap_day = bill.billing_date.number() % 10_000 == 229;
        let sequence = at(&group.details[0], 54, 56) != b"000";
        let rows: &[(bool, &str)] = match (kind, outcome) {
            ("SUP", "accepted") => &[
                (year == Some(today), " on the anniversary"),
                (year == Some(today) && leap_day, " on 28 February, billed on the 29th"),
                (sixty == Some(today), " on day 60"),
                (removal > Some(today), ", removal date after today"),
                (over(of_group), ", over a year by the group's Billing Date"),
                (bill.billing_date.number() > 29990000, ", billed in 2999"),
                (removal.is_some() && sixty.is_none(), ", day 60 after 29991231"),
            ],
            ("SUP", "BR12") => &[
                (first_over(year), " the day after the anniversary"),
                (first_over(year) && leap_day, " on 1 March, billed on 29 February"),
                (of_group >= Some(today), ", in time by the group's Billing Date"),
                (over(sixty), ", BR13 true too"),
                (sequence, ", BR05 true too"),
            ],
            ("SUP", "BR13") => &[(first_over(sixty), " on day 61"), (sequence, ", BR05 true too")],
            ("SUP", "BR09" | "BR11") => &[(over(year), ", BR12 true too"), (over(sixty), ", BR13 true too")],
            ("RSP", "accepted") => &[(over(year), ", BR12 true for a SUP"), (over(sixty), ", BR13 true for a SUP")],
            _ => &[],
        };
        rows.iter().filter(|row| row.0).for_each(|row| self.count(&format!("{kind} {outcome}{}", row.1)));
    }
}

/// The date with the same month and day 366 days on, else the one 365 days on, which for 29 February is the 28th.
fn anniversary(billing: Date) -> Option<u64> {
    let billing = u64::from(billing.number());
    let same_day = |date: &u64| date % 10_000 == billing % 10_000;
    moved(billing, 366).filter(same_day).or_else(|| moved(billing, 365))
}
