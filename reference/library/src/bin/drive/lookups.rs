//! Ledgers on which an account has several bills, each with a name and the place that paper 3 asks for, found by hand.

use clearing::Request;
use reference::words::{place, COUNT};

use crate::base::{ledger, Place};
use crate::both::Both;
use crate::call::Call;
use crate::tally::Tally;

const OWN: u64 = 123_456_780_019;
const OTHER: u64 = 123_456_780_018;

/// A bill by what the lookup goes by.
#[derive(Clone, Copy)]
struct Due {
    account: u64,
    date: u64,
    cancelled: bool,
}

/// What it is, the bills in order of first request, and the place; None for 4.
type Case = (&'static str, Vec<Due>, Option<u64>);

/// A bill of the account that is asked for, due on a day of November 2017; today is the 13th.
fn own(day: u64) -> Due {
    on(20171100 + day)
}

fn on(date: u64) -> Due {
    Due { account: OWN, date, cancelled: false }
}

fn cancelled(day: u64) -> Due {
    Due { cancelled: true, ..own(day) }
}

fn other(day: u64) -> Due {
    Due { account: OTHER, ..own(day) }
}

pub fn drive(tally: &mut Tally) -> Result<(), String> {
    for (name, bills, wanted) in [several(), equals(), today(), not_open(), others(), full()].concat() {
        for falling in [false, true] {
            let words = dressed(&bills, falling);
            let told = |told: String| format!("lookup, {name}: {told}");
            ask(&mut Both::of(&words), tally, wanted).map_err(told)?;
            ask(&mut Both::of(&one_more(words)), tally, wanted).map_err(told)?;
        }
    }
    every_place(tally)?;
    renewals(tally)
}

/// Asks the library by itself, then with the reference beside it.
fn ask(both: &mut Both, tally: &mut Tally, wanted: Option<u64>) -> Result<(), String> {
    let mut place = 999;
    let number = clearing::open_bill(both.words(), OWN, &mut place);
    tally.number("open_bill", number);
    if (number, place) != wanted.map_or((4, 999), |place| (0, place)) {
        return Err(format!("answered {number} with place {place}, expected {wanted:?}"));
    }
    both.plain(tally, &Call::OpenBill { account: OWN })?;
    both.plain(tally, &Call::OpenBill { account: OTHER })?;
    Ok(())
}

/// A ledger of these bills; all their other words rise with the place, or fall.
fn dressed(bills: &[Due], falling: bool) -> Vec<u64> {
    let bill = |(at, due): (u64, &Due)| -> Place {
        let step = if falling { 200 - at } else { 1 + at };
        let (billing, posted) = (step / 28 * 100 + step % 28, u64::from(!due.cancelled));
        #[rustfmt::skip]
        let place = [
            due.account, 100 + step, 90, 90, 52, 48, 66, step, step, due.cancelled.into(), step, step,
            20170101 + billing, 20160101 + billing, due.date, posted, posted * step, 0, 0, 20150101 + billing,
        ];
        place
    };
    ledger(&(0..).zip(bills).map(bill).collect::<Vec<_>>())
}

/// The same with a bill of the account due today past the count, if there is room.
fn one_more(mut words: Vec<u64>) -> Vec<u64> {
    let count = words[COUNT] as usize;
    if count < 128 {
        let bill = &dressed(&[own(13)], false)[place(0)..place(1)];
        words[place(count)..place(count + 1)].copy_from_slice(bill);
    }
    words
}

fn several() -> Vec<Case> {
    let days = |days: &[u64]| days.iter().map(|day| own(*day)).collect::<Vec<_>>();
    vec![
        ("one", days(&[16]), Some(0)),
        ("the earliest first", days(&[14, 16, 15]), Some(0)),
        ("the earliest between", days(&[15, 14, 16]), Some(1)),
        ("the earliest last", days(&[15, 16, 14]), Some(2)),
        ("the latest first", days(&[18, 15, 16, 14, 17]), Some(3)),
        ("rising", days(&[14, 15, 16, 17, 18]), Some(0)),
        ("falling", days(&[18, 17, 16, 15, 14]), Some(4)),
        ("falling, rising, falling", days(&[18, 16, 17, 15, 19]), Some(3)),
        ("the end of a month", vec![on(20171201), on(20171130), on(20180115)], Some(1)),
        ("the end of a year", vec![on(20180101), on(20171231), on(20180102)], Some(1)),
        ("a later year's earlier day", vec![on(20181114), on(20171130), on(20190113)], Some(1)),
        ("the last dates", vec![on(29991231), on(29991230), on(29991231)], Some(1)),
        ("the last date alone", vec![on(29991231)], Some(0)),
    ]
}

fn equals() -> Vec<Case> {
    let days = |days: &[u64]| days.iter().map(|day| own(*day)).collect::<Vec<_>>();
    vec![
        ("two equal", days(&[14, 14]), Some(0)),
        ("two equal before a later one", days(&[14, 14, 16]), Some(0)),
        ("two equal behind a later one", days(&[16, 14, 14]), Some(1)),
        ("two equal with a later one between", days(&[16, 14, 15, 14]), Some(1)),
        ("three equal", days(&[16, 16, 16]), Some(0)),
        ("three equal behind and between later ones", days(&[16, 14, 15, 14, 17, 14]), Some(1)),
        ("two equal, another earlier", days(&[16, 16, 14]), Some(2)),
        ("three equal, another earlier", days(&[16, 16, 14, 16]), Some(2)),
        ("two pairs", days(&[16, 15, 16, 15]), Some(1)),
    ]
}

fn today() -> Vec<Case> {
    vec![
        ("due today, first", vec![own(13), own(14), own(15)], Some(0)),
        ("due today, between", vec![own(14), own(13), own(15)], Some(1)),
        ("due today, last", vec![own(14), own(15), own(13)], Some(2)),
        ("two due today", vec![own(14), own(13), own(13)], Some(1)),
        ("due today, one issued yesterday", vec![own(12), own(14), own(13)], Some(2)),
    ]
}

fn not_open() -> Vec<Case> {
    vec![
        ("a cancelled one before", vec![cancelled(14), own(16), own(15)], Some(2)),
        ("a cancelled one between", vec![own(16), cancelled(14), own(15)], Some(2)),
        ("a cancelled one behind", vec![own(16), own(15), cancelled(14)], Some(1)),
        ("the first of equals cancelled", vec![cancelled(14), own(16), own(14), own(14)], Some(2)),
        ("cancelled, their dates passed", vec![cancelled(12), own(16), cancelled(12), own(15)], Some(3)),
        ("an issued one before", vec![own(12), own(16), own(15)], Some(2)),
        ("an issued one between", vec![own(16), own(12), own(15)], Some(2)),
        ("an issued one behind", vec![own(16), own(15), own(12)], Some(1)),
        ("one long issued", vec![on(19000101), own(16), own(15), own(15)], Some(2)),
        ("one open among others", vec![cancelled(13), own(12), own(16), own(12), cancelled(14)], Some(2)),
        ("only cancelled ones", vec![cancelled(14), cancelled(13)], None),
        ("only issued ones", vec![own(12), own(11)], None),
        ("only issued and cancelled ones", vec![own(12), cancelled(14)], None),
    ]
}

fn others() -> Vec<Case> {
    let all = [cancelled(13), own(12), other(13)];
    vec![
        ("another account's before", vec![other(14), own(16), own(15)], Some(2)),
        ("another account's between", vec![own(16), other(14), own(15)], Some(2)),
        ("another account's behind", vec![own(16), own(15), other(14)], Some(1)),
        ("another account's on the same day", vec![other(15), own(16), other(15), own(15)], Some(3)),
        ("all before, between and behind", [&all[..], &[own(17)], &all, &[own(16), own(16)], &all].concat(), Some(7)),
        ("no bill", vec![], None),
        ("only another account's", vec![other(14), other(16)], None),
        ("another account's and none open", vec![other(14), own(12), cancelled(15)], None),
    ]
}

/// 128 bills of one account.
fn full() -> Vec<Case> {
    let rising = (0..128).map(|at| on(20180101 + at / 28 * 100 + at % 28)).collect::<Vec<_>>();
    let falling = rising.iter().rev().copied().collect();
    let marked = |at: usize| Due { cancelled: at < 127, ..own(15) };
    vec![
        ("128 equal", vec![own(16); 128], Some(0)),
        ("128 rising", rising, Some(0)),
        ("128 falling", falling, Some(127)),
        ("128, the last two equal and earliest", [vec![own(16); 126], vec![own(15); 2]].concat(), Some(126)),
        ("128, all but the last cancelled", (0..128).map(marked).collect(), Some(127)),
        ("127 issued, the last open", [vec![own(12); 127], vec![own(15)]].concat(), Some(127)),
        ("127 of another account", [vec![other(14); 127], vec![own(15)]].concat(), Some(127)),
    ]
}

/// Of 128 open bills the earliest stands at each place, alone and with equals behind it.
fn every_place(tally: &mut Tally) -> Result<(), String> {
    for at in 0..128 {
        let mut bills = [own(16); 128];
        bills[at] = own(15);
        for equal in [at, 127] {
            bills[equal] = own(15);
            let told = |told: String| format!("lookup, the earliest of 128 at place {at}, last at {equal}: {told}");
            ask(&mut Both::of(&dressed(&bills, at % 2 == 0)), tally, Some(at as u64)).map_err(told)?;
        }
    }
    Ok(())
}

/// A renewed bill keeps its place: bills requested, renewed, cancelled and issued, with the place after each call.
fn renewals(tally: &mut Tally) -> Result<(), String> {
    let request = |account: u64, key: u64, consumption: u64, day: u64| {
        let (code, product, billing, from, scheduled) = (*b"ZZC40", b'B', 20171110, 20171010, 20171100 + day);
        Call::Request(Request { code, account, key, product, billing, from, consumption, scheduled })
    };
    let mut both = Both::of(&ledger(&[]));
    let steps = [
        (request(OWN, 9, 85, 16), Some(0)),
        (request(OWN, 8, 85, 14), Some(1)),
        (request(OTHER, 1, 85, 13), Some(1)),
        (request(OWN, 7, 85, 14), Some(1)),
        // Place 1, then place 3 put off: the order of dates is no longer that of requests.
        (request(OWN, 8, 86, 17), Some(3)),
        (request(OWN, 7, 86, 16), Some(0)),
        (request(OWN, 9, 86, 17), Some(3)),
        // All due on one day; the first was renewed after the second.
        (request(OWN, 7, 87, 17), Some(0)),
        // Renewed to an earlier day, and a refused renewal (7) that would be the earliest.
        (request(OWN, 8, 88, 15), Some(1)),
        (request(OWN, 7, 87, 13), Some(1)),
        (Call::Cancel { account: OWN, key: 8 }, Some(0)),
        (request(OWN, 6, 85, 13), Some(4)),
        (Call::Close { today: 20171114 }, Some(0)),
        // Issued, and open again.
        (request(OWN, 6, 86, 14), Some(4)),
        (Call::Close { today: 20171117 }, Some(0)),
        (Call::Cancel { account: OWN, key: 9 }, Some(3)),
        (Call::Close { today: 20171118 }, None),
        (request(OWN, 7, 88, 18), Some(3)),
    ];
    for (call, wanted) in steps {
        both.plain(tally, &call)?;
        ask(&mut both, tally, wanted).map_err(|told| format!("lookup after {call}: {told}"))?;
    }
    Ok(())
}
