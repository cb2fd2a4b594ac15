//! Lookups on ledgers of seeds: few accounts with many bills due on few days, and calls that change their order.

use clearing::Request;
use reference::calendar::moved;
use reference::prng::Prng;
use reference::words::text;
use reference::Ledger;

use crate::aim::request_of;
use crate::base::ledger;
use crate::both::Both;
use crate::call::Call;
use crate::ledgers::some_bill;
use crate::tally::Tally;

const ACCOUNTS: [u64; 3] = [123_456_780_019, 0, 999_999_999_999];
/// An account without bills.
const STRANGER: u64 = 123_456_780_018;

pub fn drive(seed: u64, tally: &mut Tally) -> Result<(), String> {
    let mut rng = Prng::new(seed ^ 0xd0e5_0000_0000_0000);
    let mut both = Both::of(&some_ledger(&mut rng));
    for at in 0..rng.range(2, 10) {
        let told = |told: String| format!("seed {seed}, lookups after {at} calls: {told}");
        look_up(&mut both, tally).map_err(told)?;
        let known = both.ledger().ok_or(told("drive itself takes the ledger for unsound".into()))?;
        let call = some_change(&mut rng, known);
        both.plain(tally, &call).map_err(told)?;
    }
    look_up(&mut both, tally).map_err(|told| format!("seed {seed}, lookups at the end: {told}"))
}

/// Every account.
fn look_up(both: &mut Both, tally: &mut Tally) -> Result<(), String> {
    ACCOUNTS.into_iter().chain([STRANGER]).try_for_each(|account| {
        both.plain(tally, &Call::OpenBill { account })?;
        Ok(())
    })
}

/// Scheduled Dates from some days before today to some days after it, so that there are issued bills and equals.
fn some_ledger(rng: &mut Prng) -> Vec<u64> {
    let today = *rng.pick(&[20171113, 20171113, 20171230, 20000228, 29991229]);
    let count = *rng.pick(&[1, 2, 3, 4, 6, 10, 30, 127, 128]);
    let accounts = rng.range(1, ACCOUNTS.len());
    let (before, after) = *rng.pick(&[(0, 0), (0, 2), (0, 300), (1, 1), (2, 3), (9, 9)]);
    let first_key = rng.below(10_000) as u64;
    let mut bills = Vec::new();
    for at in 0..count {
        // Keys 77 apart: no identity stands twice.
        let mut bill = some_bill(rng, today, (first_key + 77 * at) % 10_000);
        let days = rng.below(before + after + 1) as isize - before as isize;
        bill[0] = *rng.pick(&ACCOUNTS[..accounts]);
        bill[14] = moved(today, days).unwrap_or(today);
        bills.push(bill);
    }
    let mut words = ledger(&bills);
    words[0] = today;
    words
}

/// A bill renewed, a new one, the one due first cancelled, or a day closed.
fn some_change(rng: &mut Prng, ledger: &Ledger) -> Call {
    let identity = rng.pick(ledger.bills()).identity;
    let (account, key) = (identity.account(), identity.key());
    let today = ledger.today().number().into();
    let scheduled = moved(today, rng.below(4) as isize).unwrap_or(today);
    let first = ledger.open_bill(&text(account, 12)).map_or(key, |place| ledger.bills()[place].identity.key());
    match rng.below(8) {
        0..=2 => Call::Request(Request { scheduled, ..request_of(rng, ledger, account, key) }),
        3 => Call::Request(Request { scheduled, ..request_of(rng, ledger, account, first) }),
        4 => Call::Request(Request { scheduled, ..request_of(rng, ledger, account, (key + 1) % 10_000) }),
        5 | 6 => Call::Cancel { account, key: first },
        _ => Call::Close { today: moved(today, 1).unwrap_or(today) },
    }
}
