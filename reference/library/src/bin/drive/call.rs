//! The calls with their arguments as numbers, and what the second implementation answers to each.

use std::fmt;

use clearing::{CalendarRequest, Request};
use reference::calendar::FURTHEST;
use reference::fields::{Product, RateCode};
use reference::journal::{carry_out, fresh, start, Entry, Start};
use reference::ledger::Done;
use reference::notices::NOTICE_LENGTH;
use reference::table;
use reference::words::{consumption, date, identity, text};
use reference::{Cause, Ledger};

use crate::asked::{read, read_by_calendar};
use crate::entry;

#[derive(Clone, Debug, PartialEq)]
pub enum Call {
    Fresh {
        today: u64,
        tracking: u64,
        confirmation: u64,
    },
    Request(Request),
    /// A request by calendar; the Scheduled Date of the request is not given.
    Calendar {
        request: Request,
        number: u64,
        holidays: Vec<u64>,
    },
    File(Vec<u8>),
    Cancel {
        account: u64,
        key: u64,
    },
    Close {
        today: u64,
    },
    Removal {
        account: u64,
        date: u64,
    },
    OpenBill {
        account: u64,
    },
    Amounts {
        account: u64,
        key: u64,
    },
    LedgerTable,
    /// The entry that begins some bytes of a journal, before which so many came.
    Entry {
        journal: Vec<u8>,
        seen: u64,
    },
}

/// What a call that is carried out returns.
#[derive(Clone, Copy, Debug, PartialEq, Eq)]
pub enum Answer {
    /// Change and counts.
    Done(i64, [u64; 4]),
    /// The place of the account's open bill that is due first.
    Open(u64),
    Amounts([u64; 3]),
    /// Bytes of a table.
    Written(u64),
}

impl Call {
    pub fn name(&self) -> &'static str {
        match self {
            Call::Fresh { .. } => "fresh",
            Call::Request(_) => "request",
            Call::Calendar { .. } => "request_by_calendar",
            Call::File(_) => "file",
            Call::Cancel { .. } => "cancel",
            Call::Close { .. } => "close",
            Call::Removal { .. } => "removal",
            Call::OpenBill { .. } => "open_bill",
            Call::Amounts { .. } => "amounts",
            Call::LedgerTable => "ledger_table",
            Call::Entry { .. } => "entry",
        }
    }

    /// The length of output that is enough; None for a call without output.
    pub fn output(&self) -> Option<usize> {
        match self {
            Call::Request(_) | Call::Calendar { .. } | Call::Cancel { .. } => Some(NOTICE_LENGTH),
            Call::File(file) => Some(file.len()),
            Call::LedgerTable => Some(table::LONGEST),
            Call::Entry { journal, seen } => entry::output(journal, *seen),
            _ => None,
        }
    }

    /// What an entry tells, whatever it answers.
    pub fn told(&self) -> Option<[u64; 2]> {
        let Call::Entry { journal, seen } = self else { return None };
        Some(entry::told(journal, *seen))
    }

    /// Fresh, called or as a good entry: it reads no ledger.
    pub fn is_fresh(&self) -> bool {
        match self {
            Call::Fresh { .. } => true,
            Call::Entry { journal, seen } => matches!(start(journal, *seen), Start::Entry(Entry::Fresh(_), _)),
            _ => false,
        }
    }

    /// Carries the call out on the reference's ledger; None stands for words that are no sound ledger.
    pub fn answer(&self, ledger: &mut Option<Ledger>, out: &mut [u8]) -> Result<Answer, Cause> {
        if let Call::Fresh { today, tracking, confirmation } = self {
            *ledger = Some(Ledger::fresh(&text(*today, 8), &text(*tracking, 9), &text(*confirmation, 9))?);
            return Ok(Answer::Done(0, [0; 4]));
        }
        if let Call::Entry { journal, seen } = self {
            return answer_entry(start(journal, *seen), ledger, out);
        }
        let ledger = ledger.as_mut().ok_or(Cause::BadField)?;
        let notice = |done: Done| figures(done.change, [done.written, 0, 0, 0]);
        match self {
            Call::Fresh { .. } | Call::Entry { .. } => unreachable!("answered above"),
            Call::Request(request) => ledger.request(&read(request).ok_or(Cause::BadField)?, Some(out)).map(notice),
            Call::Calendar { request, number, holidays } => {
                let asked = read_by_calendar(&by_calendar(request, *number)).ok_or(Cause::BadField)?;
                ledger.request_by_calendar(&asked, holidays, Some(out)).map(notice)
            }
            Call::File(file) => {
                let done = ledger.file(file, Some(out))?;
                Ok(figures(done.change, [done.written, done.accepted, done.rejected, 0]))
            }
            Call::Cancel { account, key } => ledger.cancel(&text(*account, 12), &text(*key, 4), Some(out)).map(notice),
            Call::Close { today } => Ok(figures(0, [0, 0, 0, ledger.close(&text(*today, 8))?])),
            Call::Removal { account, date } => {
                ledger.removal(&text(*account, 12), &text(*date, 8)).map(|()| figures(0, [0; 4]))
            }
            Call::OpenBill { account } => ledger.open_bill(&text(*account, 12)).map(|place| Answer::Open(place as u64)),
            Call::Amounts { account, key } => {
                let (charge, applied, owed) = ledger.amounts(&text(*account, 12), &text(*key, 4))?;
                Ok(Answer::Amounts([charge.0, applied.0, owed.0]))
            }
            Call::LedgerTable => put_table(ledger, out),
        }
    }

    /// The arguments that are bad by themselves.
    pub fn bad_arguments(&self) -> Vec<&'static str> {
        let number = |number: u64| (1..=999_999_999).contains(&number);
        let account = |account: u64| ("account", identity(account, 0).is_some());
        let key = |key: u64| ("key", identity(0, key).is_some());
        let day = |name, number: u64| (name, date(number).is_some());
        let fields = match self {
            Call::Fresh { today, tracking, confirmation } => {
                vec![
                    day("today", *today),
                    ("next Tracking ID", number(*tracking)),
                    ("next Confirmation Number", number(*confirmation)),
                ]
            }
            Call::Request(request) | Call::Calendar { request, .. } => vec![
                ("rate code", RateCode::read(&request.code).is_some()),
                account(request.account),
                key(request.key),
                ("product", Product::read(request.product).is_some()),
                day("Billing Date", request.billing),
                day("From Date", request.from),
                ("consumption", consumption(request.consumption).is_some()),
                match self {
                    Call::Calendar { number, .. } => ("number", *number <= FURTHEST),
                    _ => day("Scheduled Date", request.scheduled),
                },
            ],
            Call::File(_) => vec![],
            Call::Cancel { account: a, key: k } | Call::Amounts { account: a, key: k } => vec![account(*a), key(*k)],
            Call::Close { today } => vec![day("today", *today)],
            Call::Removal { account: a, date } => vec![account(*a), day("date", *date)],
            Call::OpenBill { account: a } => vec![account(*a)],
            Call::LedgerTable => vec![],
            Call::Entry { journal, seen } => vec![("body", entry::body_is_good(journal, *seen))],
        };
        fields.into_iter().filter(|field| !field.1).map(|field| field.0).collect()
    }
}

impl fmt::Display for Call {
    fn fmt(&self, f: &mut fmt::Formatter) -> fmt::Result {
        match self {
            Call::File(file) => write!(f, "file of {} bytes", file.len()),
            Call::Entry { journal, seen } => {
                let start = &journal[..journal.len().min(70)];
                write!(f, "entry (seen {seen}, {} bytes: {})", journal.len(), start.escape_ascii())
            }
            Call::Request(r) => write!(
                f,
                "request (code {}, account {}, key {}, product {}, billing {}, from {}, consumption {}, scheduled {})",
                r.code.escape_ascii(),
                r.account,
                r.key,
                r.product,
                r.billing,
                r.from,
                r.consumption,
                r.scheduled
            ),
            other => write!(f, "{other:?}"),
        }
    }
}

fn put_table(ledger: &Ledger, out: &mut [u8]) -> Result<Answer, Cause> {
    let table = table::of_ledger(Some(ledger));
    let place = out.get_mut(..table::LONGEST).ok_or(Cause::OutputTooShort)?;
    place[..table.len()].copy_from_slice(&table);
    Ok(Answer::Written(table.len() as u64))
}

/// A request without its Scheduled Date.
pub fn by_calendar(request: &Request, number: u64) -> CalendarRequest {
    let Request { code, account, key, product, billing, from, consumption, .. } = *request;
    CalendarRequest { code, account, key, product, billing, from, consumption, number }
}

/// An entry's call on the reference's ledger.
fn answer_entry(start: Start, ledger: &mut Option<Ledger>, out: &mut [u8]) -> Result<Answer, Cause> {
    let Start::Entry(entry, _) = start else { return Err(Cause::BadEntry) };
    if let Entry::Fresh(body) = entry {
        *ledger = Some(fresh(body)?);
        return Ok(figures(0, [0; 4]));
    }
    let effect = carry_out(ledger.as_mut().ok_or(Cause::BadField)?, entry, Some(out))?;
    Ok(figures(effect.change, [effect.written, effect.accepted, effect.rejected, effect.closed]))
}

fn figures(change: i64, counts: [usize; 4]) -> Answer {
    Answer::Done(change, counts.map(|count| count as u64))
}
