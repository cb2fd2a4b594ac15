//! The place of every argument, word and figure, by numbers that all differ: two that are swapped would show.
//! Nothing here comes from the reference but the bytes of a group.

use clearing::Request;
use reference::groups::{self, Amounts};
use reference::verdict::Notification;
use reference::words;

use crate::call::Call;
use crate::lent::Lent;
use crate::run::{run, Figures};
use crate::tally::Tally;

/// Bytes of output lent to every call.
const OUTPUT: usize = 11_000;

/// What is lent to every call.
struct Held<'a> {
    words: Lent<u64>,
    out: Lent<u8>,
    figures: Figures,
    tally: &'a mut Tally,
}

pub fn drive(tally: &mut Tally) -> Result<(), String> {
    let (words, out) = (Lent::new(&[u64::MAX; 2564], 1, 0), Lent::new(&[b'#'; OUTPUT], 2, 1));
    let mut held = Held { words, out, figures: Figures::new(7), tally };
    fresh(&mut held)?;
    request(&mut held)?;
    file(&mut held)?;
    crossed(&mut held)?;
    cancel_and_close(&mut held)?;
    empty(&mut held)?;
    streamed(&mut held)?;
    by_calendar(&mut held)?;
    removal(&mut held)?;
    days(&mut held)
}

impl Held<'_> {
    /// Makes a call, which must be carried out and write nothing beside what is lent.
    fn call(&mut self, call: &Call) -> Result<(), String> {
        let number = run(call, self.words.lend(), self.out.lend(), &mut self.figures)?;
        expect(call.name(), &number, &0)?;
        let whole = self.words.is_whole() && self.out.is_whole() && self.figures.are_whole();
        expect("margins", &whole, &true)?;
        self.tally.call(call, self.out.inside().len(), number, true, true);
        Ok(())
    }

    /// A call that changes the ledger, with the change and the counts that it must return.
    fn change(&mut self, call: &Call, change: i64, counts: [u64; 4]) -> Result<(), String> {
        self.call(call)?;
        expect("change", self.figures.change.inside(), &[change])?;
        expect("counts", self.figures.counts.inside(), &counts)
    }

    /// An entry that is carried out, with the bytes and the counts that it must tell.
    fn entry(&mut self, journal: &[u8], seen: u64, bytes: u64, counts: [u64; 4]) -> Result<(), String> {
        self.call(&Call::Entry { journal: journal.to_vec(), seen })?;
        expect("told", self.figures.told.inside(), &[bytes, 0])?;
        expect("counts", self.figures.counts.inside(), &counts)
    }

    fn amounts(&mut self, account: u64, key: u64, wanted: [u64; 3]) -> Result<(), String> {
        self.call(&Call::Amounts { account, key })?;
        expect("amounts", self.figures.amounts.inside(), &wanted)
    }

    fn words(&self, from: usize, to: usize, wanted: &[u64]) -> Result<(), String> {
        expect(&format!("words {from} to {to}"), &self.words.inside()[from..=to], wanted)
    }
}

/// Each argument is a date and a next number.
fn fresh(held: &mut Held) -> Result<(), String> {
    held.change(&Call::Fresh { today: 20171113, tracking: 20171114, confirmation: 20171115 }, 0, [0; 4])?;
    held.words(0, 3, &[20171113, 20171114, 20171115, 0])?;
    let blank = [0, 0, 0, 0, 0, 0, 66, 0, 0, 0, 0, 0, 0, 0, 0, 0, 0, 0, 0, 0];
    held.words.inside()[4..].chunks(20).try_for_each(|place| expect("a blank place", place, &blank))
}

/// Account, consumption and the three dates are all dates, and each would do for the other.
fn request(held: &mut Held) -> Result<(), String> {
    let (code, account, key, product) = (*b"A7C39", 20171121, 22, b'P');
    let (billing, from, consumption, scheduled) = (20171123, 20171124, 20171125, 20171126);
    let request = Request { code, account, key, product, billing, from, consumption, scheduled };
    held.change(&Call::Request(request), 0, [642, 0, 0, 0])?;
    held.words(0, 3, &[20171113, 20171115, 20171116, 1])?;
    #[rustfmt::skip]
    let place = [
        20171121, 22, 65, 55, 51, 57, 80, 1, 1, 0, 20171114, 20171125, 20171123, 20171124, 20171126, 0, 0, 0, 0, 0,
    ];
    held.words(4, 23, &place)?;
    let out = held.out.inside();
    let header = b"34A7C3900002017112102017111401BIL201711130201711152017112601 ";
    expect("BIL header", &out[..61], header)?;
    let detail = b"34A7C3900002017112102017111402BIL20171113002220171123001002017112500000000000002017112400";
    expect("BIL detail", &out[321..321 + 89], detail)?;
    expect("past the output", &out[642..], &[b'#'; OUTPUT - 642])
}

/// Three groups, one accepted and two for bills that are not there, so that the counts differ.
fn file(held: &mut Held) -> Result<(), String> {
    let ledger = words::read(held.words.inside()).ok_or("the ledger is not sound")?;
    let amounts = Amounts { charge: 4250, applied: 4000, owed: 250, balance: 17 };
    let sent = groups::group(&ledger.bills()[0], Notification::Rsp, amounts, ledger.today());
    let mut stranger = sent.clone();
    stranger.details[0][41..45].copy_from_slice(b"0023");
    let mut other = stranger.clone();
    other.details[0][41..45].copy_from_slice(b"0024");
    held.change(&Call::File(groups::file(&[stranger, sent, other])), 4250, [5 * 321, 1, 2, 0])?;
    held.words(19, 22, &[2, 4250, 4000, 250])?;
    held.words(0, 3, &[20171113, 20171115, 20171119, 1])?;
    held.amounts(20171121, 22, [4250, 4000, 250])
}

/// Two bills whose account and key are each other's: 7 and 12, 12 and 7.
fn crossed(held: &mut Held) -> Result<(), String> {
    for (place, account, key) in [(1, 7, 12), (2, 12, 7)] {
        let (code, product, consumption) = (*b"ZZC40", b'B', 85);
        let (billing, from, scheduled) = (20171101, 20171001, 20171113);
        let request = Request { code, account, key, product, billing, from, consumption, scheduled };
        held.change(&Call::Request(request), 0, [642, 0, 0, 0])?;
        held.call(&Call::OpenBill { account })?;
        expect("place", held.figures.place.inside(), &[place])?;
    }
    // Posted by hand: 31 on the first, 32 on the second.
    held.words.lend()[4 + 20 + 15..4 + 20 + 17].copy_from_slice(&[1, 31]);
    held.words.lend()[4 + 40 + 15..4 + 40 + 17].copy_from_slice(&[1, 32]);
    held.amounts(12, 7, [32, 0, 32])
}

fn cancel_and_close(held: &mut Held) -> Result<(), String> {
    held.change(&Call::Cancel { account: 12, key: 7 }, -32, [642, 0, 0, 0])?;
    let marks: Vec<u64> = (0..3).map(|place| held.words.inside()[4 + 20 * place + 9]).collect();
    expect("cancelled", &marks[..], &[0, 0, 1])?;
    expect("CXL", &held.out.inside()[..28], b"34ZZC40000000000012020171117")?;
    held.change(&Call::Close { today: 20171114 }, 0, [0, 0, 0, 1])?;
    held.words(0, 3, &[20171114, 20171118, 20171122, 3])
}

/// The same fresh and request as entries of a journal, each followed by more of it, and the table of what they leave.
fn streamed(held: &mut Held) -> Result<(), String> {
    let fresh = b"\x00\x00\x1a20171113020171114020171115\x01";
    held.entry(fresh, 0, 29, [0; 4])?;
    held.words(0, 3, &[20171113, 20171114, 20171115, 0])?;
    let request = b"\x01\x00\x38A7C390000201711210022P2017112320171124002017112520171126\x05\x05\x05";
    held.entry(request, 999_999_999, 59, [642, 0, 0, 0])?;
    #[rustfmt::skip]
    let place = [
        20171121, 22, 65, 55, 51, 57, 80, 1, 1, 0, 20171114, 20171125, 20171123, 20171124, 20171126, 0, 0, 0, 0, 0,
    ];
    held.words(4, 23, &place)?;
    expect("BIL header", &held.out.inside()[..28], b"34A7C39000020171121020171114")?;
    // Posted by hand.
    held.words.lend()[19..23].copy_from_slice(&[2, 4250, 4000, 250]);
    held.call(&Call::LedgerTable)?;
    let table = b"account,key,code,kind,seq,ccf,charge,applied,owed,state\n\
        000020171121,0022,A7C39,P,001,0020171125,0000000004250,0000000004000,0000000000250,O\n\
        total,0000000000004250\n  ";
    expect("table", &held.out.inside()[..166], table)?;
    expect("written", held.figures.written.inside(), &[164])?;
    held.entry(b"\x03\x00\x100000201711210022", 2, 19, [642, 0, 0, 0])?;
    expect("change", held.figures.change.inside(), &[-4250])?;
    held.entry(b"\x02\x00\x00\x02", 3, 3, [0; 4])?;
    held.entry(b"\x04\x00\x0820171127", 4, 11, [0; 4])?;
    held.words(0, 3, &[20171127, 20171116, 20171117, 1])
}

/// The same request with 5 business days and two holidays in place of the Scheduled Date.
fn by_calendar(held: &mut Held) -> Result<(), String> {
    held.change(&Call::Fresh { today: 20171113, tracking: 20171114, confirmation: 20171115 }, 0, [0; 4])?;
    let (code, account, key, product) = (*b"A7C39", 20171121, 22, b'P');
    let (billing, from, consumption, scheduled) = (20171123, 20171124, 20171125, 20171126);
    let request = Request { code, account, key, product, billing, from, consumption, scheduled };
    let call = Call::Calendar { request, number: 5, holidays: vec![20171114, 20171120] };
    held.change(&call, 0, [642, 0, 0, 0])?;
    held.words(0, 3, &[20171113, 20171115, 20171116, 1])?;
    #[rustfmt::skip]
    let place = [
        20171121, 22, 65, 55, 51, 57, 80, 1, 1, 0, 20171114, 20171125, 20171123, 20171124, 20171122, 0, 0, 0, 0, 0,
    ];
    held.words(4, 23, &place)?;
    expect("BIL header", &held.out.inside()[41..58], b"02017111520171122")
}

/// One more bill on the same ledger; each bill's account is the date of the other's removal.
fn removal(held: &mut Held) -> Result<(), String> {
    let (code, account, key, product, consumption) = (*b"ZZC40", 20171122, 1, b'B', 85);
    let (billing, from, scheduled) = (20171101, 20171001, 20171113);
    let request = Request { code, account, key, product, billing, from, consumption, scheduled };
    held.change(&Call::Request(request), 0, [642, 0, 0, 0])?;
    let dates = |held: &Held| [23, 43, 63].map(|word| held.words.inside()[word]);
    held.change(&Call::Removal { account: 20171121, date: 20171122 }, 0, [0; 4])?;
    expect("removal dates", &dates(held), &[20171122, 0, 0])?;
    held.change(&Call::Removal { account: 20171122, date: 20171121 }, 0, [0; 4])?;
    expect("removal dates", &dates(held), &[20171122, 20171121, 0])?;
    held.entry(b"\x05\x00\x1400002017112120171123\x00", 5, 23, [0; 4])?;
    expect("change", held.figures.change.inside(), &[0])?;
    expect("removal dates", &dates(held), &[20171123, 20171121, 0])?;
    held.words(0, 3, &[20171113, 20171116, 20171117, 2])
}

/// Weekday, next business day and business day, by literal numbers; without holidays the pointer points nowhere.
fn days(held: &mut Held) -> Result<(), String> {
    let (mut weekday, mut next, mut further, mut none) = (99, 99, 99, 99);
    let holidays = [20171114, 20171117, 20171120];
    let numbers = [
        ("weekday", clearing::weekday(20171116, &mut weekday), 0),
        ("next_business_day", clearing::next_business_day(20171116, &holidays, &mut next), 0),
        ("business_day", clearing::business_day(20171113, 4, &holidays, &mut further), 0),
        ("business_day", clearing::business_day(29991231, 1, &[], &mut none), 15),
        ("next_business_day", clearing::next_business_day(20171116, &[20171117, 20171117], &mut none), 14),
    ];
    for (name, number, wanted) in numbers {
        expect(name, &number, &wanted)?;
        held.tally.number(name, number);
    }
    expect("days", &[weekday, next, further, none], &[4, 20171121, 20171122, 99])
}

/// Empty slices: pointers that are not null and point nowhere.
fn empty(held: &mut Held) -> Result<(), String> {
    let (mut change, mut counts, mut told) = (9, [9; 4], [9; 2]);
    let number = clearing::file(held.words.lend(), &[], &mut [], &mut change, &mut counts);
    expect("empty file", &(number, change, counts), &(0, 0, [0; 4]))?;
    held.tally.number("file", number);
    let number = clearing::notices(&[], &mut [], &mut told);
    expect("notices of an empty journal", &(number, told), &(0, [0, 13]))?;
    held.tally.number("notices", number);
    Ok(())
}

fn expect<T: PartialEq + std::fmt::Debug + ?Sized>(what: &str, got: &T, wanted: &T) -> Result<(), String> {
    if got == wanted {
        return Ok(());
    }
    Err(format!("{what}: got {got:?}, expected {wanted:?}"))
}
