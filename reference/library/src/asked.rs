//! A request's arguments as the second implementation takes them, for drive and for bench.

use clearing::{CalendarRequest, Request};
use reference::fields::{Product, RateCode};
use reference::words::{consumption, date, identity};

/// None if an argument is not in its range.
pub fn read(request: &Request) -> Option<reference::Request> {
    Some(reference::Request {
        rate_code: RateCode::read(&request.code)?,
        identity: identity(request.account, request.key)?,
        product: Product::read(request.product)?,
        billing_date: date(request.billing)?,
        from_date: date(request.from)?,
        consumption: consumption(request.consumption)?,
        scheduled_date: date(request.scheduled)?,
    })
}

/// The same for a request by calendar, whose number may be too great.
pub fn read_by_calendar(request: &CalendarRequest) -> Option<reference::CalendarRequest> {
    Some(reference::CalendarRequest {
        rate_code: RateCode::read(&request.code)?,
        identity: identity(request.account, request.key)?,
        product: Product::read(request.product)?,
        billing_date: date(request.billing)?,
        from_date: date(request.from)?,
        consumption: consumption(request.consumption)?,
        number: request.number,
    })
}
