//! The calls as they should be, by the second implementation.

use reference::dates::Date;
use reference::fields::{digits, Product, RateCode};
use reference::journal::{replay_notices, start, Entry, Replayed, Start};
use reference::words::{self, consumption, date, identity, text, WORDS};
use reference::{calendar, table, CalendarRequest, Cause, Ledger, Request};

/// The longest table.
const TABLE: usize = 10_970;

/// A changing call: the rate code or the file, and the numbers in the header's order (product and holidays among them).
pub struct Call<'a> {
    pub name: &'static str,
    pub bytes: &'a [u8],
    pub numbers: Vec<u64>,
}

/// What it is lent.
pub struct Lent<'a> {
    pub words: &'a mut [u64],
    pub out: &'a mut [u8],
    pub change: &'a mut i64,
    pub counts: &'a mut [u64; 4],
}

/// Carries a changing call out; a refused one leaves all as it was.
pub fn change(call: &Call, lent: &mut Lent) -> u64 {
    let result = match call.name {
        _ if lent.words.len() != WORDS => Err(Cause::BadField),
        "fresh" => fresh(call),
        _ => words::read(lent.words).ok_or(Cause::BadField).and_then(|ledger| carry_out(call, ledger, lent.out)),
    };
    match result {
        Ok((ledger, change, counts)) => {
            if call.name == "fresh" {
                lent.words.copy_from_slice(&words::of(&ledger));
            }
            words::put(&ledger, lent.words);
            (*lent.change, *lent.counts) = (change, counts.map(|count| count as u64));
            0
        }
        Err(cause) => cause.number().into(),
    }
}

/// The ledger after the call, the change and the counts.
type Done = Result<(Ledger, i64, [usize; 4]), Cause>;

fn fresh(call: &Call) -> Done {
    let [today, tracking, confirmation] = call.numbers[..] else { return Err(Cause::BadField) };
    Ok((Ledger::fresh(&text(today, 8), &text(tracking, 9), &text(confirmation, 9))?, 0, [0; 4]))
}

fn carry_out(call: &Call, mut ledger: Ledger, out: &mut [u8]) -> Done {
    let (change, counts) = match (call.name, &call.numbers[..]) {
        ("request", _) => {
            let done = ledger.request(&request(call).ok_or(Cause::BadField)?, Some(out))?;
            (done.change, [done.written, 0, 0, 0])
        }
        ("calendar", numbers) => {
            let asked = asked(call).ok_or(Cause::BadField)?;
            let done = ledger.request_by_calendar(&asked, &numbers[7..], Some(out))?;
            (done.change, [done.written, 0, 0, 0])
        }
        ("file", _) => {
            let done = ledger.file(call.bytes, Some(out))?;
            (done.change, [done.written, done.accepted, done.rejected, 0])
        }
        ("cancel", &[account, key]) => {
            let done = ledger.cancel(&text(account, 12), &text(key, 4), Some(out))?;
            (done.change, [done.written, 0, 0, 0])
        }
        ("removal", &[account, date]) => {
            ledger.removal(&text(account, 12), &text(date, 8))?;
            (0, [0; 4])
        }
        (_, today) => (0, [0, 0, 0, ledger.close(&text(today[0], 8))?]),
    };
    Ok((ledger, change, counts))
}

fn request(call: &Call) -> Option<Request> {
    let [account, key, product, billing, from, ccf, scheduled] = call.numbers[..] else { return None };
    Some(Request {
        rate_code: RateCode::read(call.bytes)?,
        identity: identity(account, key)?,
        product: Product::read(product as u8)?,
        billing_date: date(billing)?,
        from_date: date(from)?,
        consumption: consumption(ccf)?,
        scheduled_date: date(scheduled)?,
    })
}

/// The same with a number of business days in place of the Scheduled Date.
fn asked(call: &Call) -> Option<CalendarRequest> {
    let numbers = [&call.numbers[..6], &[19000101]].concat();
    let request = request(&Call { name: "request", bytes: call.bytes, numbers })?;
    let Request { rate_code, identity, product, billing_date, from_date, consumption, .. } = request;
    let number = call.numbers[6];
    Some(CalendarRequest { rate_code, identity, product, billing_date, from_date, consumption, number })
}

pub fn weekday(date: u64, weekday: &mut u64) -> u64 {
    day(calendar::weekday(date), weekday)
}

pub fn next_business_day(date: u64, holidays: &[u64], found: &mut u64) -> u64 {
    day(calendar::next_business_day(date, holidays).map(number), found)
}

pub fn business_day(date: u64, further: u64, holidays: &[u64], found: &mut u64) -> u64 {
    day(calendar::business_day(date, further, holidays).map(number), found)
}

fn number(date: Date) -> u64 {
    date.number().into()
}

fn day(result: Result<u64, Cause>, found: &mut u64) -> u64 {
    match result {
        Ok(day) => {
            *found = day;
            0
        }
        Err(cause) => cause.number().into(),
    }
}

pub fn open_bill(words: &[u64], account: u64, place: &mut u64) -> u64 {
    let result = words::read(words).ok_or(Cause::BadField).and_then(|ledger| ledger.open_bill(&text(account, 12)));
    result.map_or_else(
        |cause| cause.number().into(),
        |found| {
            *place = found as u64;
            0
        },
    )
}

pub fn amounts(words: &[u64], account: u64, key: u64, amounts: &mut [u64; 3]) -> u64 {
    let ledger = words::read(words).ok_or(Cause::BadField);
    match ledger.and_then(|ledger| ledger.amounts(&text(account, 12), &text(key, 4))) {
        Ok((charge, applied, owed)) => {
            *amounts = [charge.0, applied.0, owed.0];
            0
        }
        Err(cause) => cause.number().into(),
    }
}

pub fn ledger_table(words: &[u64], out: &mut [u8], written: &mut u64) -> u64 {
    let Some(ledger) = words::read(words) else { return 2 };
    let mut told = [0; 2];
    let number = write(&table::of_ledger(Some(&ledger)), TABLE, false, out, &mut told);
    if number == 0 {
        *written = told[0];
    }
    number
}

pub fn entry(journal: &[u8], seen: u64, lent: &mut Lent, told: &mut [u64; 2]) -> u64 {
    match start(journal, seen) {
        Start::Entry(entry, length) => {
            *told = [length as u64, 0];
            change(&call_of(entry), lent)
        }
        Start::Short => {
            *told = [0, 1];
            13
        }
        Start::Bad => {
            *told = [0, 0];
            13
        }
    }
}

/// An entry's call; a field that is not digits becomes a number that is too wide.
fn call_of(entry: Entry<'_>) -> Call<'_> {
    let number = |field: &[u8]| digits(field).unwrap_or(u64::MAX);
    let call = |name, bytes, numbers| Call { name, bytes, numbers };
    match entry {
        Entry::Fresh(body) => call("fresh", &[], [&body[..8], &body[8..17], &body[17..]].map(number).to_vec()),
        Entry::Request(body) => {
            let (identity, dates) = ([&body[5..17], &body[17..21]].map(number), [&body[22..30], &body[30..38]]);
            let rest = [&body[38..48], &body[48..]].map(number);
            let numbers = [&identity[..], &[body[21].into()], &dates.map(number), &rest].concat();
            call("request", &body[..5], numbers)
        }
        Entry::File(body) => call("file", body, vec![]),
        Entry::Cancel(body) => call("cancel", &[], [&body[..12], &body[12..]].map(number).to_vec()),
        Entry::Close(body) => call("close", &[], vec![number(body)]),
        Entry::Removal(body) => call("removal", &[], [&body[..12], &body[12..]].map(number).to_vec()),
    }
}

/// A journal's notices, and where it ended.
fn replay(journal: &[u8]) -> (Vec<u8>, Replayed) {
    let mut notices = Vec::new();
    let replayed = replay_notices(journal, &mut notices).expect("a slice is read without an error");
    (notices, replayed)
}

pub fn table(journal: &[u8], out: &mut [u8], told: &mut [u64; 2]) -> u64 {
    let replayed = replay(journal).1;
    write(&table::table(&replayed), TABLE, replayed.stopped, out, told)
}

pub fn notices(journal: &[u8], out: &mut [u8], told: &mut [u64; 2]) -> u64 {
    let (notices, replayed) = replay(journal);
    write(&notices, notices.len(), replayed.stopped, out, told)
}

fn write(bytes: &[u8], enough: usize, stopped: bool, out: &mut [u8], told: &mut [u64; 2]) -> u64 {
    if out.len() < enough {
        return 1;
    }
    out[..bytes.len()].copy_from_slice(bytes);
    *told = [bytes.len() as u64, if stopped { 13 } else { 0 }];
    0
}
