//! Calls aimed at the state of a ledger: ones that it carries out, and ones that it refuses for each cause.

use clearing::Request;
use reference::calendar::moved;
use reference::dates::Date;
use reference::file::{FILE_LIMIT, RECORD_LENGTH};
use reference::generator::days;
use reference::groups::{self, Amounts, Sent};
use reference::prng::Prng;
use reference::verdict::Notification;
use reference::{Bill, Ledger};

use crate::call::Call;
use crate::entry;
use crate::spoil::spoil;

#[rustfmt::skip]
pub const DATES: [u64; 11] = [
    19000101, 19001231, 20000229, 20010228, 20010301, 20171112, 20171113, 20171114, 20171116, 24000229, 29991231,
];

/// A call of any kind, most often one that is carried out.
pub fn some_call(rng: &mut Prng, ledger: &Ledger) -> Call {
    let (account, key) = some_identity(rng, ledger);
    let mut call = match rng.below(46) {
        0..=7 => Call::Request(some_request(rng, ledger)),
        8..=11 => some_by_calendar(rng, ledger),
        12..=21 => Call::File(some_file(rng, ledger)),
        22..=27 => Call::Cancel { account, key },
        28..=31 => Call::Close { today: some_day(rng, ledger.today(), 25) },
        32..=35 => Call::OpenBill { account: some_owner(rng, ledger) },
        36..=38 => Call::Amounts { account, key },
        39..=40 => Call::LedgerTable,
        41..=44 => Call::Removal { account, date: some_removal(rng, ledger.today().number().into()) },
        _ => Call::Fresh { today: *rng.pick(&DATES), tracking: next_number(rng), confirmation: next_number(rng) },
    };
    if rng.chance(12) {
        spoil(rng, &mut call);
    }
    match entry::of_call(&call).filter(|_| rng.chance(20)) {
        Some(journal) => Call::Entry { seen: some_seen(rng, &call), journal },
        None => call,
    }
}

/// How many entries came before: most often so many that the entry is good.
fn some_seen(rng: &mut Prng, call: &Call) -> u64 {
    let first = call.is_fresh() != rng.chance(3);
    if first {
        0
    } else {
        *rng.pick(&[1, 1, 2, 77, 123_456_789, 999_999_999, 999_999_999, 1_000_000_000, u64::MAX])
    }
}

/// A bill's identity; rarely one that no bill has.
pub fn some_identity(rng: &mut Prng, ledger: &Ledger) -> (u64, u64) {
    let unknown = (rng.draw() % 10_u64.pow(12), rng.below(10_000) as u64);
    if ledger.bills().is_empty() || rng.chance(6) {
        return unknown;
    }
    let identity = rng.pick(ledger.bills()).identity;
    match rng.below(12) {
        0 => (identity.account(), unknown.1),
        1 => (unknown.0, identity.key()),
        _ => (identity.account(), identity.key()),
    }
}

/// An account to look up: most often one with several open bills, if there is one.
pub fn some_owner(rng: &mut Prng, ledger: &Ledger) -> u64 {
    let open = || ledger.bills().iter().filter(|bill| ledger.is_open(bill)).map(|bill| bill.identity.account());
    let several: Vec<u64> = open().filter(|account| open().filter(|other| other == account).count() > 1).collect();
    if several.is_empty() || rng.chance(20) {
        return some_identity(rng, ledger).0;
    }
    *rng.pick(&several)
}

/// A next number that fresh takes.
pub fn next_number(rng: &mut Prng) -> u64 {
    *rng.pick(&[1, 2, 7, 20171116, 123_456_789, 999_999_990, 999_999_998, 999_999_999])
}

/// Today, or a day after it; in so many of a hundred a day before it, if there is one.
pub fn some_day(rng: &mut Prng, today: Date, before: usize) -> u64 {
    let today_number = u64::from(today.number());
    let earlier: Vec<u64> = DATES.into_iter().filter(|date| *date < today_number).collect();
    if rng.chance(before) && !earlier.is_empty() {
        return *rng.pick(&earlier);
    }
    let days = *rng.pick(&[0, 1, 1, 1, 2, 30]);
    let day = (0..days).fold(today, |date, _| date.next().unwrap_or(date));
    day.number().into()
}

/// A Billing Date: any, of the last days, or about a year before today.
pub fn some_billing(rng: &mut Prng, today: u64) -> u64 {
    let days = *rng.pick(&[0, -1, -30, -364, -365, -366, -367]);
    moved(today, days).filter(|_| rng.chance(75)).unwrap_or(*rng.pick(&DATES))
}

/// A removal date: any, about today, or about 60 days before it.
pub fn some_removal(rng: &mut Prng, today: u64) -> u64 {
    let days = *rng.pick(&[1, 0, -1, -59, -60, -61, -62]);
    moved(today, days).filter(|_| rng.chance(75)).unwrap_or(*rng.pick(&DATES))
}

pub fn some_consumption(rng: &mut Prng) -> u64 {
    *rng.pick(&[0, 1, 85, 86, 4_294_967_381, 9_999_999_999])
}

fn some_request(rng: &mut Prng, ledger: &Ledger) -> Request {
    let (account, key) = some_identity(rng, ledger);
    request_of(rng, ledger, account, key)
}

/// A request for a bill, new or known.
pub fn request_of(rng: &mut Prng, ledger: &Ledger, account: u64, key: u64) -> Request {
    let of_identity = |bill: &&Bill| (bill.identity.account(), bill.identity.key()) == (account, key);
    let bill = ledger.bills().iter().find(of_identity);
    let code = bill.filter(|_| rng.chance(94)).map_or(*rng.pick(&[b"ZZC40", b"A9C07"]), |bill| bill.rate_code.bytes());
    let product = bill.filter(|_| rng.chance(94)).map_or(*rng.pick(b"BP"), |bill| bill.product.letter());
    let same = bill.filter(|_| rng.chance(8)).map(|bill| bill.consumption.0);
    Request {
        code: *code,
        account,
        key,
        product,
        billing: some_billing(rng, ledger.today().number().into()),
        from: *rng.pick(&DATES),
        consumption: same.unwrap_or(some_consumption(rng)),
        scheduled: some_day(rng, ledger.today(), 10),
    }
}

fn some_by_calendar(rng: &mut Prng, ledger: &Ledger) -> Call {
    let (request, number) = (some_request(rng, ledger), days::some_number(rng));
    let today = ledger.today().number().into();
    Call::Calendar { request, number, holidays: days::some_holidays(rng, today) }
}

fn some_file(rng: &mut Prng, ledger: &Ledger) -> Vec<u8> {
    let count = *rng.pick(&[0, 1, 1, 1, 2, 3, 9, 100]);
    let mut bills: Vec<&Bill> = ledger.bills().iter().collect();
    rng.shuffle(&mut bills);
    bills.truncate(count);
    let mut sent: Vec<Sent> = bills.into_iter().map(|bill| some_group(rng, bill, ledger)).collect();
    if rng.chance(5) && !sent.is_empty() {
        sent.insert(0, sent[0].clone());
    }
    let mut file = groups::file(&sent);
    file.truncate(FILE_LIMIT);
    if rng.chance(25) && !file.is_empty() {
        // Any printable byte in the text of a record.
        let at = rng.below(file.len() / RECORD_LENGTH) * RECORD_LENGTH + rng.below(RECORD_LENGTH - 1);
        file[at] = rng.range(32, 126) as u8;
    }
    file
}

/// RSP for an open bill and SUP for another, rarely the other way round.
fn some_group(rng: &mut Prng, bill: &Bill, ledger: &Ledger) -> Sent {
    let rsp = ledger.is_open(bill) != rng.chance(8);
    let charge = *rng.pick(&[0, 1, 4000, 4250, 9_999_999_999_999, 4_294_971_546]);
    let applied = *rng.pick(&[0, charge, charge / 3]);
    let amounts = Amounts { charge, applied, owed: charge - applied, balance: 17 };
    let notification = if rsp { Notification::Rsp } else { Notification::Sup };
    groups::group(bill, notification, amounts, ledger.today())
}
