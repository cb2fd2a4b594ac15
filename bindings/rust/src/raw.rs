//! The functions that libclearing_c.a exports, as `include/clearing.h` declares them.

#[link(name = "clearing_c", kind = "static")]
unsafe extern "C" {
    pub fn clearing_fresh(
        ledger: *mut u64,
        ledger_len: usize,
        today: u64,
        tracking: u64,
        confirmation: u64,
        change: *mut i64,
        counts: *mut u64,
    ) -> u64;
    pub fn clearing_request(
        ledger: *mut u64,
        ledger_len: usize,
        code: *const u8,
        account: u64,
        key: u64,
        product: u8,
        billing: u64,
        from: u64,
        consumption: u64,
        scheduled: u64,
        out: *mut u8,
        out_len: usize,
        change: *mut i64,
        counts: *mut u64,
    ) -> u64;
    pub fn clearing_request_by_calendar(
        ledger: *mut u64,
        ledger_len: usize,
        code: *const u8,
        account: u64,
        key: u64,
        product: u8,
        billing: u64,
        from: u64,
        consumption: u64,
        number: u64,
        holidays: *const u64,
        holidays_len: usize,
        out: *mut u8,
        out_len: usize,
        change: *mut i64,
        counts: *mut u64,
    ) -> u64;
    pub fn clearing_file(
        ledger: *mut u64,
        ledger_len: usize,
        file: *const u8,
        file_len: usize,
        out: *mut u8,
        out_len: usize,
        change: *mut i64,
        counts: *mut u64,
    ) -> u64;
    pub fn clearing_cancel(
        ledger: *mut u64,
        ledger_len: usize,
        account: u64,
        key: u64,
        out: *mut u8,
        out_len: usize,
        change: *mut i64,
        counts: *mut u64,
    ) -> u64;
    pub fn clearing_close(ledger: *mut u64, ledger_len: usize, today: u64, change: *mut i64, counts: *mut u64) -> u64;
    pub fn clearing_removal(
        ledger: *mut u64,
        ledger_len: usize,
        account: u64,
        date: u64,
        change: *mut i64,
        counts: *mut u64,
    ) -> u64;
    pub fn clearing_open_bill(ledger: *const u64, ledger_len: usize, account: u64, place: *mut u64) -> u64;
    pub fn clearing_amounts(ledger: *const u64, ledger_len: usize, account: u64, key: u64, amounts: *mut u64) -> u64;
    pub fn clearing_ledger_table(
        ledger: *const u64,
        ledger_len: usize,
        out: *mut u8,
        out_len: usize,
        written: *mut u64,
    ) -> u64;
    pub fn clearing_weekday(date: u64, weekday: *mut u64) -> u64;
    pub fn clearing_next_business_day(date: u64, holidays: *const u64, holidays_len: usize, day: *mut u64) -> u64;
    pub fn clearing_business_day(
        date: u64,
        number: u64,
        holidays: *const u64,
        holidays_len: usize,
        day: *mut u64,
    ) -> u64;
    pub fn clearing_entry(
        ledger: *mut u64,
        ledger_len: usize,
        journal: *const u8,
        journal_len: usize,
        seen: u64,
        out: *mut u8,
        out_len: usize,
        change: *mut i64,
        counts: *mut u64,
        found: *mut u64,
    ) -> u64;
    pub fn clearing_table(
        journal: *const u8,
        journal_len: usize,
        out: *mut u8,
        out_len: usize,
        result: *mut u64,
    ) -> u64;
    pub fn clearing_notices(
        journal: *const u8,
        journal_len: usize,
        out: *mut u8,
        out_len: usize,
        result: *mut u64,
    ) -> u64;
}
