//! The arguments of a request, whether it names its Scheduled Date or leaves it to the calendar.

use crate::cause::Cause;
use crate::dates::Date;
use crate::fields::{digits, Ccf, Identity, Product, RateCode};

/// All in their width and range.
#[derive(Clone, Debug)]
pub struct Request {
    pub rate_code: RateCode,
    pub identity: Identity,
    pub product: Product,
    pub billing_date: Date,
    pub from_date: Date,
    pub consumption: Ccf,
    pub scheduled_date: Date,
}

impl Request {
    /// code 5, account 12, key 4, B or P, Billing 8, From 8, consumption 10, Scheduled 8; 2 if one is bad.
    pub fn read(body: &[u8; 56]) -> Result<Request, Cause> {
        let read = || {
            Some(Request {
                rate_code: RateCode::read(&body[0..5])?,
                identity: Identity::read(&body[5..17], &body[17..21])?,
                product: Product::read(body[21])?,
                billing_date: Date::read(&body[22..30])?,
                from_date: Date::read(&body[30..38])?,
                consumption: Ccf(digits(&body[38..48])?),
                scheduled_date: Date::read(&body[48..56])?,
            })
        };
        read().ok_or(Cause::BadField)
    }
}

/// A request whose Scheduled Date is a number of business days from today; the number may be too great (2).
#[derive(Clone, Debug)]
pub struct CalendarRequest {
    pub rate_code: RateCode,
    pub identity: Identity,
    pub product: Product,
    pub billing_date: Date,
    pub from_date: Date,
    pub consumption: Ccf,
    pub number: u64,
}

impl CalendarRequest {
    /// The request with the date worked out.
    pub fn dated(&self, scheduled_date: Date) -> Request {
        let CalendarRequest { rate_code, identity, product, billing_date, from_date, consumption, .. } = *self;
        Request { rate_code, identity, product, billing_date, from_date, consumption, scheduled_date }
    }
}
