//! Whole journals: the library's table and notices, and what it tells, against the reference's.

use reference::generator;
use reference::groups::entry;
use reference::journal::{longest_notices, replay, replay_notices, FRESH, REQUEST};
use reference::ledger::BILL_LIMIT;
use reference::prng::Prng;
use reference::table::{table, LONGEST};

use crate::lent::{pattern, same, Lent};
use crate::tally::Tally;

/// table or notices.
type Function = fn(&[u8], &mut [u8], &mut [u64; 2]) -> u64;

/// What a function must give for a journal.
struct Wanted<'a> {
    name: &'static str,
    function: Function,
    journal: &'a [u8],
    bytes: &'a [u8],
    enough: usize,
    /// An output of this length is known to be enough before the journal is made; the library measures for a shorter one.
    ample: usize,
    stopped: bool,
}

pub fn drive(seed: u64, tally: &mut Tally) -> Result<(), String> {
    let mut rng = Prng::new(seed ^ 0x7ab1_e000_0000_0000);
    let told = |told: String| format!("journal of seed {seed}: {told}");
    try_journal(&generator::make(seed), &mut rng, tally).map_err(told)
}

/// A journal of 128 bills that ends in a stray byte has the longest table.
pub fn longest(tally: &mut Tally) -> Result<(), String> {
    let mut journal = entry(FRESH, b"20171113000000001000000001");
    for key in 0..BILL_LIMIT {
        let request = format!("ZZC40123456780019{key:04}B2017111320171013000000008520171116");
        journal.extend(entry(REQUEST, request.as_bytes()));
    }
    journal.push(0);
    let length = table(&replay(&journal[..]).map_err(|error| error.to_string())?).len();
    if length != LONGEST {
        return Err(format!("the longest table has {length} bytes"));
    }
    let told = |told: String| format!("the journal with the longest table: {told}");
    (1..=8).try_for_each(|seed| try_journal(&journal, &mut Prng::new(seed), tally)).map_err(told)
}

/// Both functions on a journal, with an output that is enough and now and then with a shorter one before.
fn try_journal(journal: &[u8], rng: &mut Prng, tally: &mut Tally) -> Result<(), String> {
    let mut notices = Vec::new();
    let replayed = replay_notices(journal, &mut notices).map_err(|error| error.to_string())?;
    let (lines, stopped) = (table(&replayed), replayed.stopped);
    let wanted =
        |name, function, bytes, enough, ample| Wanted { name, function, journal, bytes, enough, ample, stopped };
    let of_table = wanted("table", clearing::table as Function, &lines[..], LONGEST, LONGEST);
    let of_notices = wanted("notices", clearing::notices, &notices[..], notices.len(), longest_notices(journal));
    for wanted in [of_table, of_notices] {
        let (enough, ample) = (wanted.enough, wanted.ample);
        if rng.chance(40) && enough > 0 {
            let short = *rng.pick(&[0, enough - 1, enough - 1, enough / 2, lines.len().min(enough - 1)]);
            try_length(&wanted, short, tally)?;
        }
        let past = ample.saturating_sub(enough);
        let more = *rng.pick(&[0, 0, 0, 1, 321, 5000, past, past.saturating_sub(1)]);
        try_length(&wanted, enough + more, tally)?;
    }
    tally.label(format!("journals: told {}", if stopped { 13 } else { 0 }));
    Ok(())
}

fn try_length(wanted: &Wanted, length: usize, tally: &mut Tally) -> Result<(), String> {
    let (odd, turn) = (0xdead_beef_dead_beef, tally.calls());
    let journal = Lent::new(wanted.journal, b'#', turn as usize % 8);
    let mut expected = pattern(turn, length);
    let mut out = Lent::new(&expected, b'~', turn as usize % 5);
    let mut told = Lent::new(&[odd, odd + 1], odd + 2, 0);
    let answer = u64::from(length < wanted.enough);
    let mut expected_told = [odd, odd + 1];
    if answer == 0 {
        expected[..wanted.bytes.len()].copy_from_slice(wanted.bytes);
        expected_told = [wanted.bytes.len() as u64, if wanted.stopped { 13 } else { 0 }];
    }
    let lent_told = told.lend().first_chunk_mut().expect("two numbers");
    let number = (wanted.function)(journal.inside(), out.lend(), lent_told);
    let context = |what: String| format!("{}, output {length}: {what}", wanted.name);
    if number != answer {
        return Err(context(format!("answered {number}, expected {answer}")));
    }
    same(&out, &expected, "output", &|at| format!("byte {at}")).map_err(context)?;
    same(&told, &expected_told, "told", &|at| format!("number {at}")).map_err(context)?;
    same(&journal, wanted.journal, "journal", &|at| format!("byte {at}")).map_err(context)?;
    tally.number(wanted.name, number);
    tally.output(wanted.name, wanted.enough, length, number);
    Ok(())
}
