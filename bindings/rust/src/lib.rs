//! The functions of libclearing_c.a (`include/clearing.h`) for Rust: argument for argument, without unsafe.
//!
//! Each returns 0 if the call is carried out, else the number of documents 01 and 02; then all that was lent to it
//! holds what it held before, but for what `entry` tells. A slice is never null, and two lent for writing never
//! overlap: what C must promise, Rust sees to.
//! `change`: new posted total minus old, in cents; `counts`: bytes written, groups accepted and rejected, bills closed.

mod raw;

/// The arguments of a request; numbers may be too wide for their fields (2).
#[derive(Clone, Debug, PartialEq, Eq)]
pub struct Request {
    pub code: [u8; 5],
    pub account: u64,
    pub key: u64,
    pub product: u8,
    pub billing: u64,
    pub from: u64,
    pub consumption: u64,
    pub scheduled: u64,
}

/// The arguments of a request that leaves its Scheduled Date to the calendar: the number of business days from today.
#[derive(Clone, Debug, PartialEq, Eq)]
pub struct CalendarRequest {
    pub code: [u8; 5],
    pub account: u64,
    pub key: u64,
    pub product: u8,
    pub billing: u64,
    pub from: u64,
    pub consumption: u64,
    pub number: u64,
}

/// Fresh: today and the two next numbers; any 2564 words do.
pub fn fresh(
    ledger: &mut [u64],
    today: u64,
    tracking: u64,
    confirmation: u64,
    change: &mut i64,
    counts: &mut [u64; 4],
) -> u64 {
    let (words, length) = (ledger.as_mut_ptr(), ledger.len());
    // SAFETY: every pointer and length comes from a reference, so it is valid, aligned and overlaps no other.
    unsafe { raw::clearing_fresh(words, length, today, tracking, confirmation, change, counts.as_mut_ptr()) }
}

/// Request: writes a BIL.
pub fn request(ledger: &mut [u64], request: &Request, out: &mut [u8], change: &mut i64, counts: &mut [u64; 4]) -> u64 {
    // SAFETY: as for fresh.
    unsafe {
        raw::clearing_request(
            ledger.as_mut_ptr(),
            ledger.len(),
            request.code.as_ptr(),
            request.account,
            request.key,
            request.product,
            request.billing,
            request.from,
            request.consumption,
            request.scheduled,
            out.as_mut_ptr(),
            out.len(),
            change,
            counts.as_mut_ptr(),
        )
    }
}

/// Request by calendar: writes a BIL.
pub fn request_by_calendar(
    ledger: &mut [u64],
    request: &CalendarRequest,
    holidays: &[u64],
    out: &mut [u8],
    change: &mut i64,
    counts: &mut [u64; 4],
) -> u64 {
    // SAFETY: as for fresh.
    unsafe {
        raw::clearing_request_by_calendar(
            ledger.as_mut_ptr(),
            ledger.len(),
            request.code.as_ptr(),
            request.account,
            request.key,
            request.product,
            request.billing,
            request.from,
            request.consumption,
            request.number,
            holidays.as_ptr(),
            holidays.len(),
            out.as_mut_ptr(),
            out.len(),
            change,
            counts.as_mut_ptr(),
        )
    }
}

/// File: decides its groups in order, writes an ACF or REJ for each.
pub fn file(ledger: &mut [u64], file: &[u8], out: &mut [u8], change: &mut i64, counts: &mut [u64; 4]) -> u64 {
    // SAFETY: as for fresh.
    unsafe {
        raw::clearing_file(
            ledger.as_mut_ptr(),
            ledger.len(),
            file.as_ptr(),
            file.len(),
            out.as_mut_ptr(),
            out.len(),
            change,
            counts.as_mut_ptr(),
        )
    }
}

/// Cancel: writes a CXL.
pub fn cancel(
    ledger: &mut [u64],
    account: u64,
    key: u64,
    out: &mut [u8],
    change: &mut i64,
    counts: &mut [u64; 4],
) -> u64 {
    // SAFETY: as for fresh.
    unsafe {
        raw::clearing_cancel(
            ledger.as_mut_ptr(),
            ledger.len(),
            account,
            key,
            out.as_mut_ptr(),
            out.len(),
            change,
            counts.as_mut_ptr(),
        )
    }
}

/// Close of day.
pub fn close(ledger: &mut [u64], today: u64, change: &mut i64, counts: &mut [u64; 4]) -> u64 {
    let (words, length) = (ledger.as_mut_ptr(), ledger.len());
    // SAFETY: as for fresh.
    unsafe { raw::clearing_close(words, length, today, change, counts.as_mut_ptr()) }
}

/// Removal: sets the removal date of all bills of an account.
pub fn removal(ledger: &mut [u64], account: u64, date: u64, change: &mut i64, counts: &mut [u64; 4]) -> u64 {
    let (words, length) = (ledger.as_mut_ptr(), ledger.len());
    // SAFETY: as for fresh.
    unsafe { raw::clearing_removal(words, length, account, date, change, counts.as_mut_ptr()) }
}

/// The place of the open bill of an account that is due first; of equals the one first requested.
pub fn open_bill(ledger: &[u64], account: u64, place: &mut u64) -> u64 {
    // SAFETY: as for fresh.
    unsafe { raw::clearing_open_bill(ledger.as_ptr(), ledger.len(), account, place) }
}

/// Charge, applied and owed of one bill.
pub fn amounts(ledger: &[u64], account: u64, key: u64, amounts: &mut [u64; 3]) -> u64 {
    // SAFETY: as for fresh.
    unsafe { raw::clearing_amounts(ledger.as_ptr(), ledger.len(), account, key, amounts.as_mut_ptr()) }
}

/// The posted table of a ledger; written: its bytes.
pub fn ledger_table(ledger: &[u64], out: &mut [u8], written: &mut u64) -> u64 {
    let (bytes, length) = (out.as_mut_ptr(), out.len());
    // SAFETY: as for fresh.
    unsafe { raw::clearing_ledger_table(ledger.as_ptr(), ledger.len(), bytes, length, written) }
}

/// The weekday of a date, 1 Monday to 7 Sunday.
pub fn weekday(date: u64, weekday: &mut u64) -> u64 {
    // SAFETY: as for fresh.
    unsafe { raw::clearing_weekday(date, weekday) }
}

/// The first business day after a date.
pub fn next_business_day(date: u64, holidays: &[u64], day: &mut u64) -> u64 {
    // SAFETY: as for fresh.
    unsafe { raw::clearing_next_business_day(date, holidays.as_ptr(), holidays.len(), day) }
}

/// The business day so many further on from a date.
pub fn business_day(date: u64, number: u64, holidays: &[u64], day: &mut u64) -> u64 {
    // SAFETY: as for fresh.
    unsafe { raw::clearing_business_day(date, number, holidays.as_ptr(), holidays.len(), day) }
}

/// The entry that begins the bytes of a journal, before which so many came; found: its bytes, or 0 where no whole good
/// entry stands there, and then 1 if the bytes end before it does, else 0.
pub fn entry(
    ledger: &mut [u64],
    journal: &[u8],
    seen: u64,
    out: &mut [u8],
    change: &mut i64,
    counts: &mut [u64; 4],
    found: &mut [u64; 2],
) -> u64 {
    // SAFETY: as for fresh.
    unsafe {
        raw::clearing_entry(
            ledger.as_mut_ptr(),
            ledger.len(),
            journal.as_ptr(),
            journal.len(),
            seen,
            out.as_mut_ptr(),
            out.len(),
            change,
            counts.as_mut_ptr(),
            found.as_mut_ptr(),
        )
    }
}

/// The posted table of a journal; result: bytes written, and 13 if it was stopped, else 0.
pub fn table(journal: &[u8], out: &mut [u8], result: &mut [u64; 2]) -> u64 {
    let (bytes, length) = (out.as_mut_ptr(), out.len());
    // SAFETY: as for fresh.
    unsafe { raw::clearing_table(journal.as_ptr(), journal.len(), bytes, length, result.as_mut_ptr()) }
}

/// The notices of a journal; the result as for the table.
pub fn notices(journal: &[u8], out: &mut [u8], result: &mut [u64; 2]) -> u64 {
    let (bytes, length) = (out.as_mut_ptr(), out.len());
    // SAFETY: as for fresh.
    unsafe { raw::clearing_notices(journal.as_ptr(), journal.len(), bytes, length, result.as_mut_ptr()) }
}
