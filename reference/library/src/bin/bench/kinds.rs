//! The kinds of call that are timed: for each, how the library makes it and how the reference does the same.

use std::hint::black_box;

use clearing::{CalendarRequest, Request};
use reference::calendar;
use reference::file::FILE_LIMIT;
use reference::groups;
use reference::journal::{carry_out, longest_notices, replay, replay_notices, start, Replayed, Start, FILE, REQUEST};
use reference::notices::NOTICE_LENGTH;
use reference::words::{self, text, BLANK, HEAD};
use reference::{table, Cause, Ledger};

use crate::asked;
use crate::ledger::{self, account, GROUPS, KEY};
use crate::lent::Lent;

/// Entries of the journals.
const ENTRIES: usize = 1000;

/// Returns the call's number.
type ByLibrary = Box<dyn Fn(&mut Lent) -> u64>;
type ByReference = Box<dyn Fn(&mut Lent) -> Result<(), Cause>>;

pub struct Kind {
    pub name: String,
    /// What the ledger holds before each call; empty for a whole journal.
    words: Vec<u64>,
    /// Bytes of output lent.
    output: usize,
    library: ByLibrary,
    reference: ByReference,
}

impl Kind {
    pub fn lent(&self) -> Lent {
        Lent::new(&self.words, self.output)
    }

    /// Starts from the same words each time; returns the call's number.
    pub fn by_library(&self, lent: &mut Lent) -> u64 {
        lent.words.copy_from_slice(&self.words);
        black_box((self.library)(black_box(lent)))
    }

    pub fn by_reference(&self, lent: &mut Lent) -> u64 {
        lent.words.copy_from_slice(&self.words);
        black_box((self.reference)(black_box(lent))).err().map_or(0, |cause| cause.number().into())
    }
}

/// Every kind, on a ledger of so many bills; a request for a new bill makes the last of them.
pub fn all(bills: usize) -> Vec<Kind> {
    let held = ledger::holding(bills);
    let words = words::of(&held);
    let one_fewer = words::of(&ledger::holding(bills - 1));
    let last = bills - 1;
    let journal = ledger::journal(bills, ENTRIES);
    let accepted = if bills < GROUPS { format!("{bills} accepted, rest BR16") } else { "all accepted".into() };
    vec![
        fresh(&words),
        request("request, new bill (ledger holds one fewer)", &one_fewer, ledger::request(last, 85)),
        request("request, known bill", &words, ledger::request(last, 86)),
        by_calendar("request by calendar, known bill, 64 holidays", &words, ledger::by_calendar(last, 86)),
        file("file, 1 RSP, accepted", &words, ledger::responses(&held.bills()[last..], 4000)),
        file(&format!("file, {GROUPS} RSP, {accepted}"), &words, ledger::longest_file()),
        cancel(&words, account(last)),
        close(&words),
        removal(&words, account(last)),
        open_bill("open_bill", &words, account(last)),
        open_bill("open_bill, all of one account, open, falling", &words::of(&ledger::one_account(bills)), account(0)),
        amounts(&words, account(last)),
        ledger_table(&words),
        entry("entry, request, known bill", &words, groups::entry(REQUEST, &ledger::request_body(last, 86))),
        entry(
            "entry, file, 1 RSP, accepted",
            &words,
            groups::entry(FILE, &ledger::responses(&held.bills()[last..], 4000)),
        ),
        weekday(),
        business_day("business_day, 3 further on, no holidays", 3, vec![]),
        business_day("business_day, 9 further on, 64 holidays", 9, ledger::holidays()),
        whole_table(journal.clone()),
        whole_notices("exact", journal.clone(), notices(&journal).0.len()),
        whole_notices("ample", journal.clone(), longest_notices(&journal)),
    ]
}

fn fresh(words: &[u64]) -> Kind {
    let (today, tracking, confirmation) = (20171113, 77, 88);
    Kind {
        name: "fresh".into(),
        words: words.to_vec(),
        output: 0,
        library: Box::new(move |lent| {
            clearing::fresh(&mut lent.words, today, tracking, confirmation, &mut lent.change, &mut lent.counts)
        }),
        reference: Box::new(move |lent| {
            let ledger = Ledger::fresh(&text(today, 8), &text(tracking, 9), &text(confirmation, 9))?;
            lent.words[HEAD.len()..].as_chunks_mut().0.fill(BLANK);
            words::put(&ledger, &mut lent.words);
            (lent.change, lent.counts) = (0, [0; 4]);
            Ok(())
        }),
    }
}

fn request(name: &str, words: &[u64], request: Request) -> Kind {
    let same = request.clone();
    Kind {
        name: name.into(),
        words: words.to_vec(),
        output: NOTICE_LENGTH,
        library: Box::new(move |lent| {
            clearing::request(&mut lent.words, &request, &mut lent.out, &mut lent.change, &mut lent.counts)
        }),
        reference: Box::new(move |lent| {
            change(lent, |ledger, out| {
                let done = ledger.request(&asked::read(&same).ok_or(Cause::BadField)?, Some(out))?;
                Ok((done.change, [done.written, 0, 0, 0]))
            })
        }),
    }
}

fn by_calendar(name: &str, words: &[u64], request: CalendarRequest) -> Kind {
    let (same, holidays) = (request.clone(), ledger::holidays());
    let same_holidays = holidays.clone();
    Kind {
        name: name.into(),
        words: words.to_vec(),
        output: NOTICE_LENGTH,
        library: Box::new(move |lent| {
            let Lent { words, out, change, counts, .. } = lent;
            clearing::request_by_calendar(words, &request, &holidays, out, change, counts)
        }),
        reference: Box::new(move |lent| {
            change(lent, |ledger, out| {
                let asked = asked::read_by_calendar(&same).ok_or(Cause::BadField)?;
                let done = ledger.request_by_calendar(&asked, &same_holidays, Some(out))?;
                Ok((done.change, [done.written, 0, 0, 0]))
            })
        }),
    }
}

fn weekday() -> Kind {
    let date = 20171113;
    Kind {
        name: "weekday".into(),
        words: vec![],
        output: 0,
        library: Box::new(move |lent| clearing::weekday(black_box(date), &mut lent.day)),
        reference: Box::new(move |lent| {
            lent.day = calendar::weekday(black_box(date))?;
            Ok(())
        }),
    }
}

fn business_day(name: &str, number: u64, holidays: Vec<u64>) -> Kind {
    let (date, same) = (20171113, holidays.clone());
    Kind {
        name: name.into(),
        words: vec![],
        output: 0,
        library: Box::new(move |lent| clearing::business_day(date, number, &holidays, &mut lent.day)),
        reference: Box::new(move |lent| {
            lent.day = calendar::business_day(date, number, &same)?.number().into();
            Ok(())
        }),
    }
}

fn file(name: &str, words: &[u64], file: Vec<u8>) -> Kind {
    let same = file.clone();
    Kind {
        name: name.into(),
        words: words.to_vec(),
        output: file.len(),
        library: Box::new(move |lent| {
            clearing::file(&mut lent.words, &file, &mut lent.out, &mut lent.change, &mut lent.counts)
        }),
        reference: Box::new(move |lent| {
            change(lent, |ledger, out| {
                let done = ledger.file(&same, Some(out))?;
                Ok((done.change, [done.written, done.accepted, done.rejected, 0]))
            })
        }),
    }
}

fn cancel(words: &[u64], account: u64) -> Kind {
    Kind {
        name: "cancel".into(),
        words: words.to_vec(),
        output: NOTICE_LENGTH,
        library: Box::new(move |lent| {
            clearing::cancel(&mut lent.words, account, KEY, &mut lent.out, &mut lent.change, &mut lent.counts)
        }),
        reference: Box::new(move |lent| {
            change(lent, |ledger, out| {
                let done = ledger.cancel(&text(account, 12), &text(KEY, 4), Some(out))?;
                Ok((done.change, [done.written, 0, 0, 0]))
            })
        }),
    }
}

/// The day after the Scheduled Date of every bill.
fn close(words: &[u64]) -> Kind {
    let today = 20171117;
    Kind {
        name: "close, of all bills".into(),
        words: words.to_vec(),
        output: 0,
        library: Box::new(move |lent| clearing::close(&mut lent.words, today, &mut lent.change, &mut lent.counts)),
        reference: Box::new(move |lent| change(lent, |ledger, _| Ok((0, [0, 0, 0, ledger.close(&text(today, 8))?])))),
    }
}

fn removal(words: &[u64], account: u64) -> Kind {
    let date = 20171101;
    Kind {
        name: "removal, of one bill".into(),
        words: words.to_vec(),
        output: 0,
        library: Box::new(move |lent| {
            clearing::removal(&mut lent.words, account, date, &mut lent.change, &mut lent.counts)
        }),
        reference: Box::new(move |lent| {
            change(lent, |ledger, _| {
                ledger.removal(&text(account, 12), &text(date, 8))?;
                Ok((0, [0; 4]))
            })
        }),
    }
}

fn open_bill(name: &str, words: &[u64], account: u64) -> Kind {
    Kind {
        name: name.into(),
        words: words.to_vec(),
        output: 0,
        library: Box::new(move |lent| clearing::open_bill(&lent.words, account, &mut lent.place)),
        reference: Box::new(move |lent| {
            lent.place = read(lent)?.open_bill(&text(account, 12))? as u64;
            Ok(())
        }),
    }
}

fn amounts(words: &[u64], account: u64) -> Kind {
    Kind {
        name: "amounts".into(),
        words: words.to_vec(),
        output: 0,
        library: Box::new(move |lent| clearing::amounts(&lent.words, account, KEY, &mut lent.amounts)),
        reference: Box::new(move |lent| {
            let (charge, applied, owed) = read(lent)?.amounts(&text(account, 12), &text(KEY, 4))?;
            lent.amounts = [charge.0, applied.0, owed.0];
            Ok(())
        }),
    }
}

fn ledger_table(words: &[u64]) -> Kind {
    Kind {
        name: "ledger_table".into(),
        words: words.to_vec(),
        output: table::LONGEST,
        library: Box::new(move |lent| clearing::ledger_table(&lent.words, &mut lent.out, &mut lent.written)),
        reference: Box::new(move |lent| {
            let table = table::of_ledger(Some(&read(lent)?));
            lent.out[..table.len()].copy_from_slice(&table);
            lent.written = table.len() as u64;
            Ok(())
        }),
    }
}

/// One entry of a journal, with the output that a journal's calls have.
fn entry(name: &str, words: &[u64], journal: Vec<u8>) -> Kind {
    let same = journal.clone();
    let seen = 1;
    Kind {
        name: name.into(),
        words: words.to_vec(),
        output: FILE_LIMIT,
        library: Box::new(move |lent| {
            let Lent { words, out, change, counts, told, .. } = lent;
            clearing::entry(words, &journal, seen, out, change, counts, told)
        }),
        reference: Box::new(move |lent| {
            let Start::Entry(entry, length) = start(&same, seen) else { return Err(Cause::BadEntry) };
            lent.told = [length as u64, 0];
            change(lent, |ledger, out| {
                let done = carry_out(ledger, entry, Some(out))?;
                Ok((done.change, [done.written, done.accepted, done.rejected, done.closed]))
            })
        }),
    }
}

fn whole_table(journal: Vec<u8>) -> Kind {
    let same = journal.clone();
    Kind {
        name: format!("table, journal of {ENTRIES} entries"),
        words: vec![],
        output: table::LONGEST,
        library: Box::new(move |lent| clearing::table(&journal, &mut lent.out, &mut lent.told)),
        reference: Box::new(move |lent| {
            let replayed = replay(&same[..]).expect("read from memory");
            let table = table::table(&replayed);
            lent.out[..table.len()].copy_from_slice(&table);
            lent.told = told(table.len(), &replayed);
            Ok(())
        }),
    }
}

/// The reference, too, leaves an output that is too short as it was: it makes the notices first and then copies them.
fn whole_notices(which: &str, journal: Vec<u8>, output: usize) -> Kind {
    let same = journal.clone();
    Kind {
        name: format!("notices, journal of {ENTRIES} entries, {which} output"),
        words: vec![],
        output,
        library: Box::new(move |lent| clearing::notices(&journal, &mut lent.out, &mut lent.told)),
        reference: Box::new(move |lent| {
            let (notices, replayed) = notices(&same);
            lent.out.get_mut(..notices.len()).ok_or(Cause::OutputTooShort)?.copy_from_slice(&notices);
            lent.told = told(notices.len(), &replayed);
            Ok(())
        }),
    }
}

fn notices(journal: &[u8]) -> (Vec<u8>, Replayed) {
    let mut notices = Vec::new();
    let replayed = replay_notices(journal, &mut notices).expect("written to memory");
    (notices, replayed)
}

fn told(written: usize, replayed: &Replayed) -> [u64; 2] {
    [written as u64, if replayed.stopped { Cause::BadEntry.number().into() } else { 0 }]
}

/// The reference's ledger of the words that are lent.
fn read(lent: &Lent) -> Result<Ledger, Cause> {
    words::read(&lent.words).ok_or(Cause::BadField)
}

/// Words to the reference's ledger, the call (which returns change and counts), and the ledger back to the words.
fn change(
    lent: &mut Lent,
    call: impl FnOnce(&mut Ledger, &mut [u8]) -> Result<(i64, [usize; 4]), Cause>,
) -> Result<(), Cause> {
    let mut ledger = read(lent)?;
    let (change, counts) = call(&mut ledger, &mut lent.out)?;
    words::put(&ledger, &mut lent.words);
    (lent.change, lent.counts) = (change, counts.map(|count| count as u64));
    Ok(())
}
