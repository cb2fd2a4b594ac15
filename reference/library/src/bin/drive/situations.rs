//! In what situation the open bill of an account was looked up, told from the bills alone: each must have occurred.

use reference::{Bill, Ledger};

/// Of bills that do not count: what they are, and where they stand among the account's open ones.
const OUTSIDERS: [&str; 3] = ["a cancelled bill", "an issued bill", "another account's bill"];
const WHERE: [&str; 3] = ["before the open ones", "between them", "behind them"];

type Situation = (String, bool);
type Field = fn(&Bill) -> u64;

/// An account's open bills.
struct Seen<'a> {
    ledger: &'a Ledger,
    account: u64,
    /// Their places.
    open: Vec<usize>,
    /// Those of the earliest Scheduled Date, of which the first is to be named.
    due: Vec<usize>,
}

/// The labels of all that is true of a lookup that named a bill, or found none.
pub fn of(ledger: &Ledger, account: u64) -> Vec<String> {
    let open: Vec<usize> = (0..ledger.bills().len())
        .filter(|at| ledger.bills()[*at].identity.account() == account && ledger.is_open(&ledger.bills()[*at]))
        .collect();
    let date = |at: &usize| ledger.bills()[*at].scheduled_date;
    let earliest = open.iter().map(date).min();
    let due = open.iter().copied().filter(|at| Some(date(at)) == earliest).collect();
    let seen = Seen { ledger, account, open, due };
    seen.situations().into_iter().filter(|situation| situation.1).map(|situation| situation.0).collect()
}

/// Every label there is.
pub fn all() -> Vec<String> {
    let ledger = Ledger::fresh(b"20171113", b"000000001", b"000000001").expect("a good fresh");
    let nothing = Seen { ledger: &ledger, account: 0, open: vec![], due: vec![] };
    nothing.situations().into_iter().map(|situation| situation.0).collect()
}

impl Seen<'_> {
    fn situations(&self) -> Vec<Situation> {
        let found = [self.places(), self.equals(), self.dates(), self.outsiders(), self.other_orders()].concat();
        let found = found.into_iter().map(|(what, is)| (format!("open_bill 0: {what}"), is && !self.open.is_empty()));
        let none =
            self.none().into_iter().map(|(what, is)| (format!("open_bill 4: {what}"), is && self.open.is_empty()));
        found.chain(none).collect()
    }

    fn bill(&self, place: usize) -> &Bill {
        &self.ledger.bills()[place]
    }

    /// What is true of no bill at all is false.
    fn named(&self, is: impl Fn(usize) -> bool) -> bool {
        self.due.first().is_some_and(|place| is(*place))
    }

    fn some_open(&self, is: impl Fn(usize) -> bool) -> bool {
        self.open.iter().any(|place| is(*place))
    }

    /// Where the earliest stands among the open ones.
    fn places(&self) -> Vec<Situation> {
        let (first, last, count) = (self.open.first().copied(), self.open.last().copied(), self.open.len());
        vec![
            ("one open bill".into(), count == 1),
            ("several open bills".into(), count > 1),
            ("the earliest not the first open".into(), self.named(|at| Some(at) != first)),
            ("the earliest not the last open".into(), self.named(|at| Some(at) != last)),
            ("the earliest between two others".into(), self.named(|at| Some(at) != first && Some(at) != last)),
            ("the latest first".into(), self.latest_first()),
            ("place 127".into(), self.named(|at| at == 127)),
            ("the first of 128 open ones, others later".into(), count == 128 && self.due == [0]),
            ("the last of 128 open ones".into(), count == 128 && self.due == [127]),
            ("128 open ones, all equal".into(), self.due.len() == 128),
        ]
    }

    fn latest_first(&self) -> bool {
        let dates: Vec<_> = self.open.iter().map(|at| self.bill(*at).scheduled_date).collect();
        dates.len() > 1 && dates[1..].iter().all(|date| *date < dates[0])
    }

    /// Bills due on the same day.
    fn equals(&self) -> Vec<Situation> {
        let due = &self.due;
        let apart = due.len() > 1 && self.some_open(|at| due[0] < at && at < due[due.len() - 1] && !due.contains(&at));
        let later = || self.open.iter().filter(|at| !due.contains(at));
        let same = |one: usize, other: usize| self.bill(one).scheduled_date == self.bill(other).scheduled_date;
        let renewed_last = |at: usize| {
            let bill = self.bill(at);
            bill.requests > 1 && due[1..].iter().all(|other| self.bill(*other).tracking < bill.tracking)
        };
        vec![
            ("two equal, the earliest".into(), due.len() == 2),
            ("three equal, the earliest".into(), due.len() == 3),
            ("equal ones behind a later one".into(), due.len() > 1 && due[0] != self.open[0]),
            ("equal ones with a later one between".into(), apart),
            ("equal ones, none the earliest".into(), later().any(|one| later().any(|at| at != one && same(*at, *one)))),
            ("of equals the first was renewed last".into(), due.len() > 1 && self.named(renewed_last)),
        ]
    }

    fn dates(&self) -> Vec<Situation> {
        let today = self.ledger.today();
        let due_today = self.named(|at| self.bill(at).scheduled_date == today);
        let renewed = |at: usize| at < self.due[0] && self.bill(at).requests > 1;
        vec![
            ("due today, another later".into(), due_today && self.due.len() < self.open.len()),
            ("due after today, another later".into(), !due_today && self.due.len() < self.open.len()),
            ("a renewed one before it due later".into(), self.some_open(renewed)),
        ]
    }

    /// Bills that would be named if they counted.
    fn outsiders(&self) -> Vec<Situation> {
        let mut situations = Vec::new();
        for (kind, name) in OUTSIDERS.iter().enumerate() {
            for (stands, place) in WHERE.iter().enumerate() {
                let is = |at: usize| self.kind(at) == Some(kind) && self.stands(at) == stands && self.comes_first(at);
                let any = !self.open.is_empty() && (0..self.ledger.bills().len()).any(is);
                situations.push((format!("{name} due first, {place}"), any));
            }
        }
        situations
    }

    /// Which of the outsiders a bill is; the account's cancelled ones count if they would be open otherwise.
    fn kind(&self, place: usize) -> Option<usize> {
        let bill = self.bill(place);
        let passed = bill.scheduled_date < self.ledger.today();
        match bill.identity.account() == self.account {
            true if bill.cancelled => (!passed).then_some(0),
            true => passed.then_some(1),
            false => self.ledger.is_open(bill).then_some(2),
        }
    }

    fn stands(&self, place: usize) -> usize {
        let before = self.open.iter().filter(|at| **at < place).count();
        match before {
            0 => 0,
            _ if before < self.open.len() => 1,
            _ => 2,
        }
    }

    fn comes_first(&self, place: usize) -> bool {
        let order = |at: usize| (self.bill(at).scheduled_date, at);
        self.named(|named| order(place) < order(named))
    }

    /// Another open bill has less in some other field.
    fn other_orders(&self) -> Vec<Situation> {
        let fields: [(&str, Field); 6] = [
            ("Bill Key", |bill| bill.identity.key()),
            ("Billing Date", |bill| bill.billing_date.number().into()),
            ("From Date", |bill| bill.from_date.number().into()),
            ("Tracking ID", |bill| bill.tracking.into()),
            ("consumption", |bill| bill.consumption.0),
            ("charge", |bill| bill.posted.charge().0),
        ];
        let less =
            |field: Field| self.named(|named| self.some_open(|at| field(self.bill(at)) < field(self.bill(named))));
        fields.into_iter().map(|(name, field)| (format!("a lesser {name} is another's"), less(field))).collect()
    }

    /// Why there is no open bill.
    fn none(&self) -> Vec<Situation> {
        let own: Vec<&Bill> =
            self.ledger.bills().iter().filter(|bill| bill.identity.account() == self.account).collect();
        let cancelled = own.iter().filter(|bill| bill.cancelled).count();
        vec![
            ("no bill of the account".into(), own.is_empty()),
            ("only issued bills".into(), !own.is_empty() && cancelled == 0),
            ("only cancelled bills".into(), !own.is_empty() && cancelled == own.len()),
            ("issued and cancelled bills".into(), cancelled > 0 && cancelled < own.len()),
            ("another account's open bill".into(), self.ledger.bills().iter().any(|bill| self.ledger.is_open(bill))),
        ]
    }
}
