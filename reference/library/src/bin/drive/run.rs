//! Gives a call to the library, with what it may write lent between margins.

use reference::calendar::moved;
use reference::Cause;

use crate::call::{by_calendar, Answer, Call};
use crate::lent::{same, Lent};

/// What a call may write beside ledger and output.
pub struct Figures {
    pub change: Lent<i64>,
    pub counts: Lent<u64>,
    pub place: Lent<u64>,
    pub amounts: Lent<u64>,
    pub written: Lent<u64>,
    pub told: Lent<u64>,
}

impl Figures {
    /// Values that no call returns.
    pub fn new(turn: u64) -> Figures {
        let odd = 0xdead_beef_0000_0000 + turn;
        Figures {
            change: Lent::new(&[odd as i64], !odd as i64, 0),
            counts: Lent::new(&[odd, odd + 1, odd + 2, odd + 3], !odd, 0),
            place: Lent::new(&[odd], !odd, 0),
            amounts: Lent::new(&[odd, odd + 1, odd + 2], !odd, 0),
            written: Lent::new(&[odd], !odd, 0),
            told: Lent::new(&[odd, odd + 1], !odd, 0),
        }
    }

    fn three_amounts(&mut self) -> &mut [u64; 3] {
        self.amounts.lend().first_chunk_mut().expect("three amounts")
    }

    pub fn are_whole(&self) -> bool {
        let lookups = self.place.is_whole() && self.amounts.is_whole() && self.written.is_whole();
        lookups && self.change.is_whole() && self.counts.is_whole() && self.told.is_whole()
    }

    /// Holds what the call left against its answer; what it does not answer stays as it was.
    pub fn compare(&self, turn: u64, call: &Call, answer: Result<Answer, Cause>) -> Result<(), String> {
        let mut wanted = Figures::new(turn);
        match answer {
            Ok(Answer::Done(change, counts)) => {
                wanted.change.lend()[0] = change;
                wanted.counts.lend().copy_from_slice(&counts);
            }
            Ok(Answer::Amounts(amounts)) => wanted.amounts.lend().copy_from_slice(&amounts),
            Ok(Answer::Written(written)) => wanted.written.lend()[0] = written,
            Ok(Answer::Open(place)) => wanted.place.lend()[0] = place,
            Err(_) => {}
        }
        if let Some(told) = call.told() {
            wanted.told.lend().copy_from_slice(&told);
        }
        same(&self.change, wanted.change.inside(), "change", &|_| "it".into())?;
        same(&self.counts, wanted.counts.inside(), "counts", &|at| format!("number {at}"))?;
        same(&self.place, wanted.place.inside(), "place", &|_| "it".into())?;
        same(&self.amounts, wanted.amounts.inside(), "amounts", &|at| format!("number {at}"))?;
        same(&self.written, wanted.written.inside(), "written", &|_| "it".into())?;
        same(&self.told, wanted.told.inside(), "told", &|at| format!("number {at}"))
    }
}

/// Gives a call to the library; what is lent for reading only must stay as it is.
pub fn run(call: &Call, words: &mut [u64], out: &mut [u8], figures: &mut Figures) -> Result<u64, String> {
    let given = call.clone();
    let change = &mut figures.change.lend()[0];
    let counts = figures.counts.lend().first_chunk_mut().expect("four counts");
    let number = match &given {
        Call::Fresh { today, tracking, confirmation } => {
            clearing::fresh(words, *today, *tracking, *confirmation, change, counts)
        }
        Call::Request(request) => clearing::request(words, request, out, change, counts),
        Call::Calendar { request, number, holidays } => {
            let lent = lend_holidays(holidays, words);
            let asked = by_calendar(request, *number);
            let number = clearing::request_by_calendar(words, &asked, lent.inside(), out, change, counts);
            same(&lent, holidays, "holidays", &|at| format!("number {at}"))?;
            number
        }
        Call::File(file) => {
            let file = Lent::new(file, b'#', out.len() % 8);
            let number = clearing::file(words, file.inside(), out, change, counts);
            same(&file, given_bytes(call), "file", &|at| format!("byte {at}"))?;
            number
        }
        Call::Entry { journal, seen } => {
            let journal = Lent::new(journal, b'#', out.len() % 8);
            let told = figures.told.lend().first_chunk_mut().expect("two numbers");
            let number = clearing::entry(words, journal.inside(), *seen, out, change, counts, told);
            same(&journal, given_bytes(call), "journal", &|at| format!("byte {at}"))?;
            number
        }
        Call::Cancel { account, key } => clearing::cancel(words, *account, *key, out, change, counts),
        Call::Close { today } => clearing::close(words, *today, change, counts),
        Call::Removal { account, date } => clearing::removal(words, *account, *date, change, counts),
        Call::LedgerTable => clearing::ledger_table(words, out, &mut figures.written.lend()[0]),
        Call::OpenBill { account } => clearing::open_bill(words, *account, &mut figures.place.lend()[0]),
        Call::Amounts { account, key } => clearing::amounts(words, *account, *key, figures.three_amounts()),
    };
    let unchanged = *std::hint::black_box(&given) == *call;
    unchanged.then_some(number).ok_or("an argument lent for reading was changed".into())
}

/// A look past the list would make tomorrow a holiday.
fn lend_holidays(holidays: &[u64], words: &[u64]) -> Lent<u64> {
    let tomorrow = words.first().and_then(|today| moved(*today, 1));
    Lent::new(holidays, tomorrow.unwrap_or(u64::MAX), 0)
}

fn given_bytes(call: &Call) -> &[u8] {
    match call {
        Call::File(bytes) | Call::Entry { journal: bytes, .. } => bytes,
        _ => &[],
    }
}
