//! drive: calls every function of libclearing_c.a and holds each answer against the second implementation.

mod aim;
mod arguments;
#[path = "../../asked.rs"]
mod asked;
mod base;
mod both;
mod call;
mod days;
mod dues;
mod edges;
mod entry;
mod journals;
mod ledgers;
mod lent;
mod lists;
mod lookups;
mod places;
mod run;
mod situations;
mod spoil;
mod stream;
mod tally;
mod unsound;

use std::process::exit;
use std::time::Instant;

use tally::Tally;

const USAGE: &str = "\
drive --seeds FROM COUNT
    for each seed a list of calls, ten ledgers made word by word with some calls each, one with lookups of the bill due
    first, and a journal, whole and streamed entry by entry, and questions to the calendar; before them the place of
    every argument, named ledgers for the lookup, every word of a ledger made bad and every head of an entry; after them
    every date
Exit status: 0 all equal and every cause reached, 1 a difference or a cause not reached, 2 a wrong use.";

/// Ledgers made word by word for each seed.
const LEDGERS: u64 = 10;

fn main() {
    let arguments: Vec<String> = std::env::args().skip(1).collect();
    let (from, count) = match arguments.iter().map(String::as_str).collect::<Vec<_>>()[..] {
        ["--seeds", from, count] => (number(from), number(count)),
        _ => stop(2, USAGE),
    };
    let started = Instant::now();
    let mut tally = Tally::default();
    if let Err(told) = drive(from, count, &mut tally) {
        stop(1, &format!("DIFFERENCE after {} calls: {told}", tally.calls()));
    }
    print!("{}", tally.report());
    let seconds = started.elapsed().as_secs_f64();
    println!("{} calls equal, seeds {from} to {}, {seconds:.1} s", tally.calls(), from + count - 1);
    if !tally.missing().is_empty() {
        stop(1, &format!("NEVER OCCURRED: {}", tally.missing().join("; ")));
    }
}

fn drive(from: u64, count: u64, tally: &mut Tally) -> Result<(), String> {
    arguments::drive(tally).map_err(|told| format!("places of arguments: {told}"))?;
    lookups::drive(tally)?;
    places::drive(tally)?;
    edges::drive(tally)?;
    unsound::drive(tally)?;
    journals::longest(tally)?;
    stream::heads(tally)?;
    for seed in from..from + count {
        lists::drive(seed, tally)?;
        (0..LEDGERS).try_for_each(|which| ledgers::drive(seed, which, tally))?;
        dues::drive(seed, tally)?;
        journals::drive(seed, tally)?;
        stream::drive(seed, tally)?;
        days::drive(seed, tally)?;
    }
    days::every_date(tally)
}

fn number(word: &str) -> u64 {
    word.parse().unwrap_or_else(|_| stop(2, &format!("not a number: {word}\n{USAGE}")))
}

fn stop(status: i32, told: &str) -> ! {
    eprintln!("{told}");
    exit(status)
}
