//! "Causes": why a call is refused. Returned is the number alone.

#[derive(Clone, Copy, Debug, PartialEq, Eq)]
pub enum Cause {
    /// Output under the file's length, or under 642.
    OutputTooShort = 1,
    /// A field too wide or not digits, no date, a bad rate code, a bad product, a next number out of range.
    /// (The ledger part of 2 cannot occur here: a ledger comes from `fresh` or, sound, from `words`.)
    BadField = 2,
    /// New identity, 128 bills held.
    LedgerFull = 3,
    NoSuchBill = 4,
    BillCancelled = 5,
    /// Rate code or product not the bill's.
    NotTheBills = 6,
    ConsumptionUnchanged = 7,
    /// Sequence 999 at a request.
    LastSequence = 8,
    ScheduledBeforeToday = 9,
    /// Close: date not after today.
    DateNotAfterToday = 10,
    BadFile = 11,
    /// Fewer numbers left than the call needs.
    NumbersUsedUp = 12,
    BadEntry = 13,
    /// The holidays do not strictly rise, are over 64, or one is no date.
    BadHolidays = 14,
    /// No such day up to 29991231.
    NoBusinessDay = 15,
}

impl Cause {
    pub fn number(self) -> u8 {
        self as u8
    }
}
