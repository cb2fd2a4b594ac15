//! bench: how long each call of libclearing_c.a takes beside the second implementation, in one process.

#[path = "../../asked.rs"]
mod asked;
mod kinds;
mod ledger;
mod lent;

use std::hint::black_box;
use std::process::exit;
use std::time::Instant;

use reference::words;

use kinds::Kind;

const USAGE: &str = "\
bench [--rounds N] [--milliseconds M]
    --rounds        rounds of each call; in each the library and then the reference make it many times over (31)
    --milliseconds  about how long the slower of the two takes in a round (2)
Exit status: 0, or 1 if the two sides differ or refuse a call, 2 for a wrong use.";

const COUNTED: &str = "\
Counted on both sides: copying the 2,564 words into the ledger lent, then the call. The library's call works on the
words; the reference's is words to its ledger (asking if it is sound), the call, and the ledger back to the words.
A table or notices start from a journal's bytes, the calendar from numbers, and nothing is copied. The bill asked for
is the last one held. An exact output is as long as the notices, which the library then makes twice; an ample one is as
long as a journal with such entries may need, so that they are made once.
The last two lines for each ledger say how much of this is the copy, and how much of the reference's time is words to
ledger and back: with many bills nearly all of it, so that the ratio there says little of the call itself.
Before a call is timed both sides make it once: the number must be 0, and words, output and figures the same; each
call that is timed must give 0 too.";

/// Bills held.
const LEDGERS: [usize; 3] = [1, 16, 128];

struct Plan {
    rounds: usize,
    milliseconds: f64,
}

/// Nanoseconds a call.
struct Times {
    median: f64,
    best: f64,
}

fn main() {
    let plan = read_plan();
    println!(
        "ns a call: median of {} rounds, the two sides in turn (best in brackets); ratio = library / reference",
        plan.rounds
    );
    println!("{COUNTED}");
    for bills in LEDGERS {
        if let Err(told) = measure(&plan, bills) {
            stop(1, &format!("bench: {bills} bills: {told}"));
        }
    }
}

fn read_plan() -> Plan {
    let mut plan = Plan { rounds: 31, milliseconds: 2.0 };
    let mut arguments = std::env::args().skip(1);
    while let Some(word) = arguments.next() {
        let number = arguments.next().and_then(|value| value.parse::<u16>().ok()).filter(|number| *number > 0);
        match (word.as_str(), number) {
            ("--rounds", Some(number)) => plan.rounds = number.into(),
            ("--milliseconds", Some(number)) => plan.milliseconds = number.into(),
            _ => stop(2, USAGE),
        }
    }
    plan
}

fn measure(plan: &Plan, bills: usize) -> Result<(), String> {
    println!("\n{:<48}{:>22}{:>22}{:>16}", format!("bills held: {bills}"), "library", "reference", "ratio");
    for kind in kinds::all(bills) {
        check(&kind).map_err(|told| format!("{}: {told}", kind.name))?;
        let (theirs, ours) = time_both(plan, &kind);
        println!(
            "{:<48}{:>22}{:>22}{:>16}",
            kind.name,
            theirs.show(0),
            ours.show(0),
            Times { median: theirs.median / ours.median, best: theirs.best / ours.best }.show(2)
        );
    }
    parts(plan, bills);
    Ok(())
}

/// What the calls on words have in them beside their own work.
fn parts(plan: &Plan, bills: usize) {
    let base = words::of(&ledger::holding(bills));
    let mut words = base.clone();
    let copy = times((0..plan.rounds).map(|_| time(1000, || black_box(&mut words).copy_from_slice(black_box(&base)))));
    let both_ways = times((0..plan.rounds).map(|_| {
        time(20, || words::put(&words::read(black_box(&base)).expect("a sound ledger"), black_box(&mut words)))
    }));
    println!("{:<48}{:>22}{:>22}", "part of a call on words: the copy", copy.show(0), copy.show(0));
    println!("{:<48}{:>22}{:>22}", "part of it, but in fresh: words to ledger, back", "-", both_ways.show(0));
}

/// Both sides make the call once; what they leave must be the same.
fn check(kind: &Kind) -> Result<(), String> {
    let (mut theirs, mut ours) = (kind.lent(), kind.lent());
    let numbers = (kind.by_library(&mut theirs), kind.by_reference(&mut ours));
    if numbers != (0, 0) {
        return Err(format!("the library answered {}, the reference {}", numbers.0, numbers.1));
    }
    theirs.same(&ours)
}

/// Rounds of the library and the reference in turn, so that what else the machine does meets both.
fn time_both(plan: &Plan, kind: &Kind) -> (Times, Times) {
    let (mut theirs, mut ours) = (kind.lent(), kind.lent());
    let mut by_library = || assert_eq!(kind.by_library(&mut theirs), 0, "{}", kind.name);
    let mut by_reference = || assert_eq!(kind.by_reference(&mut ours), 0, "{}", kind.name);
    let slower = time(3, &mut by_library).max(time(3, &mut by_reference));
    let calls = (plan.milliseconds * 1e6 / slower).ceil() as u32;
    let rounds: Vec<_> =
        (0..plan.rounds).map(|_| (time(calls, &mut by_library), time(calls, &mut by_reference))).collect();
    (times(rounds.iter().map(|round| round.0)), times(rounds.iter().map(|round| round.1)))
}

/// Nanoseconds a call, over so many calls.
fn time(calls: u32, mut call: impl FnMut()) -> f64 {
    let started = Instant::now();
    (0..calls).for_each(|_| call());
    started.elapsed().as_nanos() as f64 / f64::from(calls)
}

fn times(rounds: impl Iterator<Item = f64>) -> Times {
    let mut rounds: Vec<f64> = rounds.collect();
    rounds.sort_by(f64::total_cmp);
    Times { median: rounds[rounds.len() / 2], best: rounds[0] }
}

impl Times {
    fn show(&self, places: usize) -> String {
        format!("{:.places$} ({:.places$})", self.median, self.best)
    }
}

fn stop(status: i32, told: &str) -> ! {
    eprintln!("{told}");
    exit(status)
}
