//! Paper 3: of an account's open bills the lookup names the one due first, and of equals the one first requested.

mod common;
use common::*;
use reference::generator;
use reference::journal::{carry_out, fresh as fresh_entry, Entries, Entry, Next};
use reference::ledger::BILL_LIMIT;
use reference::prng::Prng;
use reference::words::text;
use reference::{Cause, Ledger};

const OTHER: &[u8; 12] = b"123456780018";

/// The body of a request for a bill of the account.
fn body(account: &[u8; 12], key: u64, consumption: u64, due: u64) -> [u8; 56] {
    let mut body = with_consumption(BILL_READY, consumption);
    body[5..17].copy_from_slice(account);
    body[17..21].copy_from_slice(&text(key, 4));
    body[48..].copy_from_slice(&text(due, 8));
    body
}

/// A request that is carried out: a new bill, or a known one renewed with another consumption.
fn ask(ledger: &mut Ledger, account: &[u8; 12], key: u64, consumption: u64, due: u64) {
    request(ledger, &body(account, key, consumption, due)).unwrap();
}

/// On 20171113: bills of one account with keys 0, 1, 2 and so on, due on these dates.
fn due(dates: &[u64]) -> Ledger {
    let mut ledger = fresh();
    (0..).zip(dates).for_each(|(key, date)| ask(&mut ledger, ACCOUNT, key, 85, *date));
    ledger
}

fn cancel(ledger: &mut Ledger, key: u64) {
    ledger.cancel(ACCOUNT, &text(key, 4), None).unwrap();
}

#[test]
fn the_earliest_of_several() {
    assert_eq!(due(&[20171116]).open_bill(ACCOUNT), Ok(0));
    assert_eq!(due(&[20171114, 20171115, 20171116]).open_bill(ACCOUNT), Ok(0));
    assert_eq!(due(&[20171116, 20171114, 20171115]).open_bill(ACCOUNT), Ok(1));
    assert_eq!(due(&[20171115, 20171116, 20171114]).open_bill(ACCOUNT), Ok(2));
    // It falls, rises and falls again: not the first that is earlier than its neighbours.
    assert_eq!(due(&[20171118, 20171116, 20171117, 20171115, 20171119]).open_bill(ACCOUNT), Ok(3));
}

#[test]
fn by_year_month_and_day() {
    assert_eq!(due(&[20171201, 20171130]).open_bill(ACCOUNT), Ok(1));
    assert_eq!(due(&[20180101, 20171231]).open_bill(ACCOUNT), Ok(1));
    assert_eq!(due(&[20200228, 20200301, 20200229]).open_bill(ACCOUNT), Ok(0));
    assert_eq!(due(&[29991231, 29991230, 29991231]).open_bill(ACCOUNT), Ok(1));
}

#[test]
fn of_equals_the_one_first_requested() {
    assert_eq!(due(&[20171114, 20171114]).open_bill(ACCOUNT), Ok(0));
    assert_eq!(due(&[20171116, 20171114, 20171114]).open_bill(ACCOUNT), Ok(1));
    assert_eq!(due(&[20171116, 20171114, 20171115, 20171114, 20171114]).open_bill(ACCOUNT), Ok(1));
    assert_eq!(due(&[20171116, 20171116, 20171116]).open_bill(ACCOUNT), Ok(0));
    assert_eq!(due(&[20171116, 20171116, 20171114]).open_bill(ACCOUNT), Ok(2), "the equals are not the earliest");
}

#[test]
fn due_today() {
    let mut ledger = due(&[20171115, 20171113, 20171114, 20171113]);
    assert_eq!(ledger.open_bill(ACCOUNT), Ok(1));
    ledger.close(b"20171114").unwrap();
    assert_eq!(ledger.open_bill(ACCOUNT), Ok(2));
    ledger.close(b"20171115").unwrap();
    assert_eq!(ledger.open_bill(ACCOUNT), Ok(0));
    ledger.close(b"20171116").unwrap();
    assert_eq!(ledger.open_bill(ACCOUNT), Err(Cause::NoSuchBill));
}

#[test]
fn cancelled_bills_do_not_count() {
    let mut ledger = due(&[20171114, 20171117, 20171114, 20171115, 20171115]);
    cancel(&mut ledger, 0);
    assert_eq!(ledger.open_bill(ACCOUNT), Ok(2), "one before it is cancelled");
    cancel(&mut ledger, 2);
    assert_eq!(ledger.open_bill(ACCOUNT), Ok(3), "one between the open ones is cancelled too");
    cancel(&mut ledger, 3);
    assert_eq!(ledger.open_bill(ACCOUNT), Ok(4), "the first of two equals is cancelled");
    cancel(&mut ledger, 4);
    assert_eq!(ledger.open_bill(ACCOUNT), Ok(1));
    cancel(&mut ledger, 1);
    assert_eq!(ledger.open_bill(ACCOUNT), Err(Cause::NoSuchBill));
}

#[test]
fn issued_bills_do_not_count() {
    // From 20171115 on the places 0 and 2 are issued: before the open ones and between them.
    let mut ledger = due(&[20171113, 20171118, 20171114, 20171116]);
    ledger.close(b"20171115").unwrap();
    assert_eq!(ledger.open_bill(ACCOUNT), Ok(3));
    ledger.close(b"20171116").unwrap();
    assert_eq!(ledger.open_bill(ACCOUNT), Ok(3), "it is open on its Scheduled Date");
    ledger.close(b"20171117").unwrap();
    assert_eq!(ledger.open_bill(ACCOUNT), Ok(1));
}

#[test]
fn bills_of_other_accounts_do_not_count() {
    let mut ledger = fresh();
    ask(&mut ledger, OTHER, 1, 85, 20171113);
    ask(&mut ledger, ACCOUNT, 1, 85, 20171117);
    ask(&mut ledger, OTHER, 2, 85, 20171113);
    ask(&mut ledger, ACCOUNT, 2, 85, 20171115);
    ask(&mut ledger, OTHER, 3, 85, 20171113);
    // Places are those of the ledger, not counted among the account's own bills.
    assert_eq!(ledger.open_bill(ACCOUNT), Ok(3));
    assert_eq!(ledger.open_bill(OTHER), Ok(0));
    ledger.close(b"20171114").unwrap();
    assert_eq!(ledger.open_bill(ACCOUNT), Ok(3));
    assert_eq!(ledger.open_bill(OTHER), Err(Cause::NoSuchBill));
}

#[test]
fn a_renewed_bill_keeps_its_place() {
    let mut ledger = due(&[20171114, 20171115, 20171116]);
    ask(&mut ledger, ACCOUNT, 0, 86, 20171117);
    assert_eq!(ledger.open_bill(ACCOUNT), Ok(1), "the first is due last now");
    ask(&mut ledger, ACCOUNT, 1, 86, 20171116);
    assert_eq!(ledger.open_bill(ACCOUNT), Ok(1), "renewed after the third was requested, it still comes before it");
    ask(&mut ledger, ACCOUNT, 0, 87, 20171116);
    assert_eq!(ledger.open_bill(ACCOUNT), Ok(0), "renewed last and first requested");
    ask(&mut ledger, ACCOUNT, 2, 86, 20171113);
    assert_eq!(ledger.open_bill(ACCOUNT), Ok(2), "renewed to an earlier date");
    ledger.close(b"20171117").unwrap();
    ask(&mut ledger, ACCOUNT, 1, 88, 20171118);
    assert_eq!(ledger.open_bill(ACCOUNT), Ok(1), "an issued bill is open again");
}

#[test]
fn a_refused_renewal_moves_nothing() {
    let mut ledger = due(&[20171116, 20171114]);
    assert_eq!(request(&mut ledger, &body(ACCOUNT, 0, 85, 20171113)), Err(Cause::ConsumptionUnchanged));
    assert_eq!(request(&mut ledger, &body(ACCOUNT, 0, 86, 20171112)), Err(Cause::ScheduledBeforeToday));
    assert_eq!(ledger.open_bill(ACCOUNT), Ok(1));
}

#[test]
fn by_no_other_field() {
    let mut ledger = fresh();
    // The least key, Billing Date, From Date, consumption and Scheduled Date are those of places 1, 2, 0, 4 and 3.
    for (key, billing, from, consumption, date) in [
        (5, 20171109, 20171001, 85, 20171116),
        (1, 20171112, 20171012, 90, 20171117),
        (4, 20171101, 20171011, 91, 20171115),
        (3, 20171111, 20171010, 92, 20171114),
        (2, 20171110, 20171009, 1, 20171118),
    ] {
        let mut body = body(ACCOUNT, key, consumption, date);
        body[22..38].copy_from_slice(&[text(billing, 8), text(from, 8)].concat());
        request(&mut ledger, &body).unwrap();
    }
    assert_eq!(ledger.open_bill(ACCOUNT), Ok(3));
}

#[test]
fn a_full_ledger_of_one_account() {
    let mut dates = [20171116; BILL_LIMIT];
    assert_eq!(due(&dates).open_bill(ACCOUNT), Ok(0), "all equal");
    dates[127] = 20171115;
    assert_eq!(due(&dates).open_bill(ACCOUNT), Ok(127));
    dates[126] = 20171115;
    assert_eq!(due(&dates).open_bill(ACCOUNT), Ok(126));
    dates[0] = 20171114;
    assert_eq!(due(&dates).open_bill(ACCOUNT), Ok(0));
}

#[test]
fn causes() {
    let ledger = due(&[20171116, 20171114]);
    for account in [&b"12345678001"[..], b"1234567800190", b"12345678001X", b""] {
        assert_eq!(ledger.open_bill(account), Err(Cause::BadField));
    }
    assert_eq!(ledger.open_bill(OTHER), Err(Cause::NoSuchBill));
    assert_eq!(fresh().open_bill(ACCOUNT), Err(Cause::NoSuchBill));
}

/// None of the account's open bills is due earlier, none due the same day has a lower place; 4 if and only if none is.
fn holds(ledger: &Ledger, account: u64) {
    let bills = ledger.bills();
    let mut open = bills.iter().enumerate().filter(|(_, b)| b.identity.account() == account && ledger.is_open(b));
    match ledger.open_bill(&text(account, 12)) {
        Ok(found) => {
            assert!(bills[found].identity.account() == account && ledger.is_open(&bills[found]));
            let first = bills[found].scheduled_date;
            assert!(open.all(|(place, b)| b.scheduled_date > first || (b.scheduled_date == first && place >= found)));
        }
        Err(cause) => assert_eq!((cause, open.count()), (Cause::NoSuchBill, 0)),
    }
}

#[test]
fn seeded_ledgers() {
    let mut rng = Prng::new(3);
    for _ in 0..2000 {
        let mut ledger = fresh();
        for turn in 0..rng.range(1, 60) as u64 {
            let (account, key) = (*rng.pick(&[ACCOUNT, OTHER]), rng.below(20) as u64);
            let today = u64::from(ledger.today().number());
            match rng.below(10) {
                0 => drop(ledger.cancel(account, &text(key, 4), None)),
                1 if today < 20171125 => drop(ledger.close(&text(today + 1, 8))),
                // Refused for a cancelled bill, which changes nothing.
                _ => drop(request(&mut ledger, &body(account, key, turn, today + rng.below(5) as u64))),
            }
            [123_456_780_019, 123_456_780_018, 7].iter().for_each(|account| holds(&ledger, *account));
        }
    }
}

#[test]
fn journals_of_seeds() {
    for seed in 1..=300 {
        let journal = generator::make(seed);
        let mut entries = Entries::new(&journal[..]);
        let Ok(Next::Entry(Entry::Fresh(first))) = entries.read_next() else { continue };
        let Ok(mut ledger) = fresh_entry(first) else { continue };
        while let Ok(Next::Entry(entry)) = entries.read_next() {
            let _ = carry_out(&mut ledger, entry, None);
            let accounts: Vec<u64> = ledger.bills().iter().map(|bill| bill.identity.account()).collect();
            accounts.iter().for_each(|account| holds(&ledger, *account));
        }
    }
}
