//! compare_days: holds program business_day against the reference, on arguments and holidays made from seeds.

use std::collections::BTreeMap;
use std::ffi::OsStr;
use std::os::unix::ffi::OsStrExt;
use std::process::exit;
use std::sync::atomic::{AtomicBool, AtomicU64, Ordering::SeqCst};
use std::sync::Mutex;
use std::thread;
use std::time::Instant;

use reference::generator::lines::{labels, make, Asked};
use reference::running::{ask_usage, run};

const USAGE: &str = "\
compare_days --business_day PATH --seeds FROM COUNT [--threads N]
    makes a date, a number and holidays of each seed, good ones and bad ones, runs the program with them and compares
    its standard output with the reference's, byte by byte; standard error must stay empty; before that, asks how the
    program answers another number of arguments than two: how it is used on standard error, nothing on standard output,
    and standard input, which stays open, is left alone
compare_days --show SEED
    shows the arguments, the input and the answer of a seed
Exit status: 0 all equal and, with 1000 seeds or more, every kind of answer reached, 1 if not, 2 a wrong use or a
program not run.";

/// So many seeds must reach all that there is to reach.
const ENOUGH: u64 = 1000;
/// Other numbers of arguments than two.
const ARGUMENTS: [&[&str]; 4] = [&[], &["--help"], &["20171113"], &["20171113", "3", "20171115"]];

/// How often each label occurred, and the first seed that differs, with what is told of it.
#[derive(Default)]
struct Tally {
    labels: BTreeMap<String, u64>,
    difference: Option<(u64, String)>,
}

fn main() {
    let arguments: Vec<String> = std::env::args().skip(1).collect();
    let (path, from, count, threads) = match arguments.iter().map(String::as_str).collect::<Vec<_>>()[..] {
        ["--show", seed] => return show(&make(number(seed))),
        ["--business_day", path, "--seeds", from, count] => (path, number(from), number(count), 2),
        ["--business_day", path, "--seeds", from, count, "--threads", threads] => {
            (path, number(from), number(count), number(threads).max(1))
        }
        _ => stop(USAGE),
    };
    for arguments in ARGUMENTS {
        let told = ask_usage(path, arguments, "DATE NUMBER").unwrap_or_else(|error| stop(&format!("{path}: {error}")));
        if let Some(told) = told {
            fail(&format!("USAGE: {path} {} {told}", arguments.join(" ")));
        }
    }
    let started = Instant::now();
    let tally = try_all(path, from, count, threads);
    if let Some((seed, told)) = tally.difference {
        show(&make(seed));
        fail(&format!("DIFFERENCE at seed {seed}: {told}"));
    }
    tally.labels.iter().for_each(|(label, count)| println!("{count:>10}  {label}"));
    println!("{count} runs of {path} equal, {:.1} s", started.elapsed().as_secs_f64());
    let missing: Vec<String> = labels().into_iter().filter(|label| !tally.labels.contains_key(label)).collect();
    if !missing.is_empty() && count >= ENOUGH {
        fail(&format!("NEVER OCCURRED: {}", missing.join("; ")));
    }
}

/// Threads take seed after seed until one finds a difference; seeds already begun are finished.
fn try_all(path: &str, from: u64, count: u64, threads: u64) -> Tally {
    let (next, differs) = (AtomicU64::new(from), AtomicBool::new(false));
    let tally = Mutex::new(Tally::default());
    thread::scope(|scope| {
        for _ in 0..threads {
            scope.spawn(|| loop {
                let seed = next.fetch_add(1, SeqCst);
                if seed >= from + count || differs.load(SeqCst) {
                    break;
                }
                let asked = make(seed);
                let difference = try_one(path, &asked).err().map(|told| (seed, told));
                differs.fetch_or(difference.is_some(), SeqCst);
                tally.lock().expect("no thread panics").add(&asked, difference);
            });
        }
    });
    tally.into_inner().expect("no thread panics")
}

impl Tally {
    fn add(&mut self, asked: &Asked, difference: Option<(u64, String)>) {
        asked.labels().into_iter().for_each(|label| *self.labels.entry(label).or_default() += 1);
        let earlier = |new: &(u64, String)| self.difference.as_ref().is_none_or(|old| new.0 < old.0);
        if difference.as_ref().is_some_and(earlier) {
            self.difference = difference;
        }
    }
}

/// Runs the program; an error tells what it did otherwise.
fn try_one(path: &str, asked: &Asked) -> Result<(), String> {
    let arguments = [&asked.date, &asked.number].map(|argument| OsStr::from_bytes(argument));
    let ran = run(path, &arguments, &asked.holidays).unwrap_or_else(|error| stop(&format!("{path}: {error}")));
    let expected = asked.expected();
    if ran.output != expected.as_bytes() || !ran.error.is_empty() || ran.status.code().is_none() {
        let (output, error, status) = (ran.output.escape_ascii(), ran.error, ran.status);
        return Err(format!("wrote \"{output}\" and to standard error {error:?} ({status}), expected {expected:?}"));
    }
    Ok(())
}

fn show(asked: &Asked) {
    println!("business_day \"{}\" \"{}\"", asked.date.escape_ascii(), asked.number.escape_ascii());
    let start = &asked.holidays[..asked.holidays.len().min(1000)];
    println!("{} bytes of holidays: \"{}\"", asked.holidays.len(), start.escape_ascii());
    print!("answer: {}", asked.expected());
}

fn number(word: &str) -> u64 {
    word.parse().unwrap_or_else(|_| stop(&format!("not a number: {word}\n{USAGE}")))
}

fn fail(told: &str) -> ! {
    println!("{told}");
    exit(1)
}

fn stop(told: &str) -> ! {
    eprintln!("{told}");
    exit(2)
}
