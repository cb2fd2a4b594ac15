//! The library's functions over the second implementation: what `drive` is tried on, as it stands and with faults put
//! into it (`faults/`, by `src/bin/faults.rs`). It can never show a fault of the library; it shows that drive does.
#![allow(clippy::missing_safety_doc, clippy::too_many_arguments)] // include/clearing.h says what callers owe

mod calls;

use std::slice::{from_raw_parts, from_raw_parts_mut};

use calls::{Call, Lent};

/// What a changing call is lent.
unsafe fn lent<'a>(
    (ledger, ledger_len): (*mut u64, usize),
    (out, out_len): (*mut u8, usize),
    change: *mut i64,
    counts: *mut u64,
) -> Lent<'a> {
    Lent {
        words: from_raw_parts_mut(ledger, ledger_len),
        out: from_raw_parts_mut(out, out_len),
        change: &mut *change,
        counts: &mut *counts.cast(),
    }
}

#[no_mangle]
pub unsafe extern "C" fn clearing_fresh(
    ledger: *mut u64,
    ledger_len: usize,
    today: u64,
    tracking: u64,
    confirmation: u64,
    change: *mut i64,
    counts: *mut u64,
) -> u64 {
    let no_output = (std::ptr::dangling_mut(), 0);
    let call = Call { name: "fresh", bytes: &[], numbers: vec![today, tracking, confirmation] };
    calls::change(&call, &mut lent((ledger, ledger_len), no_output, change, counts))
}

#[no_mangle]
pub unsafe extern "C" fn clearing_request(
    ledger: *mut u64,
    ledger_len: usize,
    code: *const u8,
    account: u64,
    key: u64,
    product: u8,
    billing: u64,
    from: u64,
    consumption: u64,
    scheduled: u64,
    out: *mut u8,
    out_len: usize,
    change: *mut i64,
    counts: *mut u64,
) -> u64 {
    let numbers = vec![account, key, product.into(), billing, from, consumption, scheduled];
    let call = Call { name: "request", bytes: from_raw_parts(code, 5), numbers };
    calls::change(&call, &mut lent((ledger, ledger_len), (out, out_len), change, counts))
}

#[no_mangle]
pub unsafe extern "C" fn clearing_request_by_calendar(
    ledger: *mut u64,
    ledger_len: usize,
    code: *const u8,
    account: u64,
    key: u64,
    product: u8,
    billing: u64,
    from: u64,
    consumption: u64,
    number: u64,
    holidays: *const u64,
    holidays_len: usize,
    out: *mut u8,
    out_len: usize,
    change: *mut i64,
    counts: *mut u64,
) -> u64 {
    let fields = [account, key, product.into(), billing, from, consumption, number];
    let numbers = [&fields[..], from_raw_parts(holidays, holidays_len)].concat();
    let call = Call { name: "calendar", bytes: from_raw_parts(code, 5), numbers };
    calls::change(&call, &mut lent((ledger, ledger_len), (out, out_len), change, counts))
}

#[no_mangle]
pub unsafe extern "C" fn clearing_file(
    ledger: *mut u64,
    ledger_len: usize,
    file: *const u8,
    file_len: usize,
    out: *mut u8,
    out_len: usize,
    change: *mut i64,
    counts: *mut u64,
) -> u64 {
    let call = Call { name: "file", bytes: from_raw_parts(file, file_len), numbers: vec![] };
    calls::change(&call, &mut lent((ledger, ledger_len), (out, out_len), change, counts))
}

#[no_mangle]
pub unsafe extern "C" fn clearing_cancel(
    ledger: *mut u64,
    ledger_len: usize,
    account: u64,
    key: u64,
    out: *mut u8,
    out_len: usize,
    change: *mut i64,
    counts: *mut u64,
) -> u64 {
    let call = Call { name: "cancel", bytes: &[], numbers: vec![account, key] };
    calls::change(&call, &mut lent((ledger, ledger_len), (out, out_len), change, counts))
}

#[no_mangle]
pub unsafe extern "C" fn clearing_close(
    ledger: *mut u64,
    ledger_len: usize,
    today: u64,
    change: *mut i64,
    counts: *mut u64,
) -> u64 {
    let no_output = (std::ptr::dangling_mut(), 0);
    let call = Call { name: "close", bytes: &[], numbers: vec![today] };
    calls::change(&call, &mut lent((ledger, ledger_len), no_output, change, counts))
}

#[no_mangle]
pub unsafe extern "C" fn clearing_removal(
    ledger: *mut u64,
    ledger_len: usize,
    account: u64,
    date: u64,
    change: *mut i64,
    counts: *mut u64,
) -> u64 {
    let no_output = (std::ptr::dangling_mut(), 0);
    let call = Call { name: "removal", bytes: &[], numbers: vec![account, date] };
    calls::change(&call, &mut lent((ledger, ledger_len), no_output, change, counts))
}

#[no_mangle]
pub unsafe extern "C" fn clearing_open_bill(
    ledger: *const u64,
    ledger_len: usize,
    account: u64,
    place: *mut u64,
) -> u64 {
    calls::open_bill(from_raw_parts(ledger, ledger_len), account, &mut *place)
}

#[no_mangle]
pub unsafe extern "C" fn clearing_amounts(
    ledger: *const u64,
    ledger_len: usize,
    account: u64,
    key: u64,
    amounts: *mut u64,
) -> u64 {
    calls::amounts(from_raw_parts(ledger, ledger_len), account, key, &mut *amounts.cast())
}

#[no_mangle]
pub unsafe extern "C" fn clearing_ledger_table(
    ledger: *const u64,
    ledger_len: usize,
    out: *mut u8,
    out_len: usize,
    written: *mut u64,
) -> u64 {
    calls::ledger_table(from_raw_parts(ledger, ledger_len), from_raw_parts_mut(out, out_len), &mut *written)
}

#[no_mangle]
pub unsafe extern "C" fn clearing_weekday(date: u64, weekday: *mut u64) -> u64 {
    calls::weekday(date, &mut *weekday)
}

#[no_mangle]
pub unsafe extern "C" fn clearing_next_business_day(
    date: u64,
    holidays: *const u64,
    holidays_len: usize,
    day: *mut u64,
) -> u64 {
    calls::next_business_day(date, from_raw_parts(holidays, holidays_len), &mut *day)
}

#[no_mangle]
pub unsafe extern "C" fn clearing_business_day(
    date: u64,
    number: u64,
    holidays: *const u64,
    holidays_len: usize,
    day: *mut u64,
) -> u64 {
    calls::business_day(date, number, from_raw_parts(holidays, holidays_len), &mut *day)
}

#[no_mangle]
pub unsafe extern "C" fn clearing_entry(
    ledger: *mut u64,
    ledger_len: usize,
    journal: *const u8,
    journal_len: usize,
    seen: u64,
    out: *mut u8,
    out_len: usize,
    change: *mut i64,
    counts: *mut u64,
    told: *mut u64,
) -> u64 {
    let journal = from_raw_parts(journal, journal_len);
    let mut lent = lent((ledger, ledger_len), (out, out_len), change, counts);
    calls::entry(journal, seen, &mut lent, &mut *told.cast())
}

#[no_mangle]
pub unsafe extern "C" fn clearing_table(
    journal: *const u8,
    journal_len: usize,
    out: *mut u8,
    out_len: usize,
    told: *mut u64,
) -> u64 {
    calls::table(from_raw_parts(journal, journal_len), from_raw_parts_mut(out, out_len), &mut *told.cast())
}

#[no_mangle]
pub unsafe extern "C" fn clearing_notices(
    journal: *const u8,
    journal_len: usize,
    out: *mut u8,
    out_len: usize,
    told: *mut u64,
) -> u64 {
    calls::notices(from_raw_parts(journal, journal_len), from_raw_parts_mut(out, out_len), &mut *told.cast())
}
