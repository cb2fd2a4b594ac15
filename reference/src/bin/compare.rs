//! compare: holds the programs against the reference, on journals made from seeds.

use std::io::Write;
use std::process::exit;
use std::sync::atomic::{AtomicBool, AtomicU64, Ordering::SeqCst};
use std::sync::Mutex;
use std::time::Instant;
use std::{io, thread};

use reference::coverage::Coverage;
use reference::expect::expect;
use reference::file::RECORD_LENGTH;
use reference::generator;
use reference::running::{ask_usage, run as run_program};
use reference::show::show;
use reference::shrink::shrink;

const USAGE: &str = "\
compare --posted PATH --brn PATH --trace PATH --seeds FROM COUNT [--threads N]
    makes the journals of the seeds, runs the programs on each and compares their output with the reference's, and
    what they say on standard error: nothing, but `stopped,13` by brn where a bad entry stopped the journal
    (some of the programs may be left out); before that, asks how each answers an argument: how it is used on
    standard error, nothing on standard output, and standard input, which stays open, is left alone
compare --self-check FROM COUNT [--threads N]
    the same without programs: only the reference against its history
compare --make SEED
    writes that journal to standard output
compare --show JOURNAL
    lists the entries of a journal with what the reference makes of each
Exit status: 0 all equal and, with 1000 seeds or more, all reached that a journal can reach, 1 if not, or if an argument
is answered otherwise, 2 a wrong use or a program not run.";

/// So many seeds must reach all that there is to reach.
const ENOUGH: u64 = 1000;

/// What each program is given to see that it says how it is used.
const ARGUMENTS: [&str; 2] = ["--help", "journal.bin"];
/// What brn says of a journal that a bad entry stopped, as the table's last line does.
const STOPPED: &str = "stopped,13\n";
#[derive(Clone, Default)]
struct Plan {
    posted: Option<String>,
    brn: Option<String>,
    trace: Option<String>,
    from: u64,
    count: u64,
    threads: u64,
}

#[derive(Default)]
struct Tally {
    coverage: Coverage,
    calls: u64,
    journal_bytes: u64,
    table_bytes: u64,
    notice_bytes: u64,
    trace_bytes: u64,
    /// Runs that ended with another status than 0.
    failures: u64,
    difference: Option<(u64, String)>,
}

fn main() {
    let arguments: Vec<String> = std::env::args().skip(1).collect();
    let words: Vec<&str> = arguments.iter().map(String::as_str).collect();
    if let ["--make", seed] = words[..] {
        let journal = generator::make(number(seed));
        io::stdout().write_all(&journal).unwrap_or_else(|error| stop(&error.to_string()));
        return;
    }
    if let ["--show", path] = words[..] {
        let journal = std::fs::read(path).unwrap_or_else(|error| stop(&format!("{path}: {error}")));
        print!("{}", show(&journal));
        return;
    }
    let plan = read_plan(&words);
    if let Err(told) = ask_programs(&plan) {
        println!("USAGE: {told}");
        exit(1);
    }
    let started = Instant::now();
    let tally = run(&plan);
    if let Some((seed, told)) = &tally.difference {
        report_difference(&plan, *seed, told);
        exit(1);
    }
    report(&plan, &tally, started);
    if plan.count >= ENOUGH && !tally.coverage.missing().is_empty() {
        exit(1);
    }
}

/// What the journals reached, how much was compared and how long it took.
fn report(plan: &Plan, tally: &Tally, started: Instant) {
    print!("{}", tally.coverage.report());
    println!(
        "{} seeds equal: {} calls, {} bytes of journals, {} of tables, {} of notices, {} of traces, {:.1} s",
        plan.count,
        tally.calls,
        tally.journal_bytes,
        tally.table_bytes,
        tally.notice_bytes,
        tally.trace_bytes,
        started.elapsed().as_secs_f64()
    );
    if tally.failures > 0 {
        println!("{} runs ended with a status other than 0", tally.failures);
    }
}

fn read_plan(words: &[&str]) -> Plan {
    let mut plan = Plan { threads: 2, ..Plan::default() };
    let mut rest = words;
    loop {
        rest = match rest {
            [] => break,
            ["--posted", path, after @ ..] => {
                plan.posted = Some(path.to_string());
                after
            }
            ["--brn", path, after @ ..] => {
                plan.brn = Some(path.to_string());
                after
            }
            ["--trace", path, after @ ..] => {
                plan.trace = Some(path.to_string());
                after
            }
            ["--seeds" | "--self-check", from, count, after @ ..] => {
                (plan.from, plan.count) = (number(from), number(count));
                after
            }
            ["--threads", count, after @ ..] => {
                plan.threads = number(count).max(1);
                after
            }
            _ => stop(USAGE),
        };
    }
    let programs = plan.programs().next().is_some();
    if plan.count == 0 || !(programs || words.contains(&"--self-check")) {
        stop(USAGE);
    }
    plan
}

impl Plan {
    fn programs(&self) -> impl Iterator<Item = &String> {
        [&self.posted, &self.brn, &self.trace].into_iter().flatten()
    }
}

fn ask_programs(plan: &Plan) -> Result<(), String> {
    let mut asked = plan.programs().flat_map(|path| ARGUMENTS.map(|argument| (path, argument)));
    asked.try_for_each(|(path, argument)| {
        let told =
            ask_usage(path, &[argument], "standard input").unwrap_or_else(|error| stop(&format!("{path}: {error}")));
        told.map_or(Ok(()), |told| Err(format!("{path} {argument} {told}")))
    })
}

/// Threads take seed after seed until one finds a difference; seeds already begun are finished.
fn run(plan: &Plan) -> Tally {
    let next = AtomicU64::new(plan.from);
    let differs = AtomicBool::new(false);
    let tally = Mutex::new(Tally::default());
    thread::scope(|scope| {
        for _ in 0..plan.threads {
            scope.spawn(|| loop {
                let seed = next.fetch_add(1, SeqCst);
                if seed >= plan.from + plan.count || differs.load(SeqCst) {
                    break;
                }
                let one = try_seed(plan, seed);
                differs.fetch_or(one.difference.is_some(), SeqCst);
                tally.lock().expect("no thread panics").merge(one);
            });
        }
    });
    tally.into_inner().expect("no thread panics")
}

impl Tally {
    fn merge(&mut self, other: Tally) {
        self.coverage.merge(&other.coverage);
        self.calls += other.calls;
        self.journal_bytes += other.journal_bytes;
        self.table_bytes += other.table_bytes;
        self.notice_bytes += other.notice_bytes;
        self.trace_bytes += other.trace_bytes;
        self.failures += other.failures;
        let earlier = |old: &(u64, String), new: &(u64, String)| new.0 < old.0;
        match (&self.difference, other.difference) {
            (Some(old), Some(new)) if earlier(old, &new) => self.difference = Some(new),
            (None, new) => self.difference = new,
            _ => {}
        }
    }
}

fn try_seed(plan: &Plan, seed: u64) -> Tally {
    let journal = generator::make(seed);
    let mut tally = try_journal(plan, &journal);
    tally.coverage.merge(&Coverage::of(&journal));
    tally.journal_bytes = journal.len() as u64;
    tally.difference = tally.difference.map(|(_, told)| (seed, told));
    tally
}

/// The difference is told as seed 0's.
fn try_journal(plan: &Plan, journal: &[u8]) -> Tally {
    let mut tally = Tally::default();
    let expected = match expect(journal) {
        Ok(expected) => expected,
        Err(told) => {
            tally.difference = Some((0, format!("the reference disagrees with itself: {told}")));
            return tally;
        }
    };
    tally.calls = expected.calls;
    tally.table_bytes = expected.table.len() as u64;
    tally.notice_bytes = expected.notices.len() as u64;
    tally.trace_bytes = expected.trace.len() as u64;
    tally.coverage.trace(&expected.trace);
    // Notices cannot say that a bad entry stopped the journal, so brn says it on standard error.
    let stopped = if expected.table.ends_with(STOPPED.as_bytes()) { STOPPED } else { "" };
    let programs = [
        ("table", &plan.posted, &expected.table, ""),
        ("notices", &plan.brn, &expected.notices, stopped),
        ("trace", &plan.trace, &expected.trace, ""),
    ];
    for (what, path, wanted, wanted_error) in programs {
        let Some(path) = path else { continue };
        let ran = run_program(path, &[""; 0], journal).unwrap_or_else(|error| stop(&format!("{path}: {error}")));
        let (got, error, status) = (ran.output, ran.error, ran.status);
        tally.failures += u64::from(!status.success());
        if got != *wanted || error != wanted_error || status.code().is_none() {
            let told = match what {
                _ if got == *wanted => format!("standard error {error:?}, {wanted_error:?} expected"),
                "notices" => first_record(&got, wanted),
                _ => first_line(what, &got, wanted),
            };
            tally.difference = Some((0, format!("{path} ({status}): {told}")));
            return tally;
        }
    }
    tally
}

/// Where two outputs first differ.
fn first_offset(got: &[u8], wanted: &[u8]) -> usize {
    got.iter().zip(wanted).take_while(|(a, b)| a == b).count()
}

fn first_line(what: &str, got: &[u8], wanted: &[u8]) -> String {
    let offset = first_offset(got, wanted);
    let line = wanted[..offset].iter().filter(|byte| **byte == b'\n').count();
    let text = |table: &[u8]| match table.split(|byte| *byte == b'\n').nth(line) {
        Some(text) => String::from_utf8_lossy(&text[..text.len().min(200)]).into_owned(),
        None => "(no such line)".to_string(),
    };
    format!(
        "{what} differs at byte {offset}, line {} ({} bytes, {} expected)\n  got      {}\n  expected {}",
        line + 1,
        got.len(),
        wanted.len(),
        text(got),
        text(wanted)
    )
}

fn first_record(got: &[u8], wanted: &[u8]) -> String {
    let offset = first_offset(got, wanted);
    let record = offset / RECORD_LENGTH;
    let text = |notices: &[u8]| match notices.chunks(RECORD_LENGTH).nth(record) {
        Some(text) => String::from_utf8_lossy(text).trim_end_matches('\r').to_string(),
        None => "(no such record)".to_string(),
    };
    format!(
        "notices differ at byte {offset}: record {} (from 0), position {} ({} bytes, {} expected)\n  got      {}\n  \
         expected {}",
        record,
        offset % RECORD_LENGTH + 1,
        got.len(),
        wanted.len(),
        text(got),
        text(wanted)
    )
}

/// Writes the journal, and a smaller one that still shows a difference.
fn report_difference(plan: &Plan, seed: u64, told: &str) {
    let journal = generator::make(seed);
    println!("DIFFERENCE at seed {seed}: {told}");
    write_journal(&format!("compare-{seed}.journal"), &journal);
    let small = shrink(&journal, |journal| try_journal(plan, journal).difference.is_some());
    if let Some((_, told)) = try_journal(plan, &small).difference {
        println!("smaller: {told}");
        write_journal(&format!("compare-{seed}-small.journal"), &small);
    }
}

fn write_journal(name: &str, journal: &[u8]) {
    let path = std::env::temp_dir().join(name);
    match std::fs::write(&path, journal) {
        Ok(()) => println!("the journal ({} bytes) is in {}", journal.len(), path.display()),
        Err(error) => println!("the journal could not be written to {}: {error}", path.display()),
    }
}

fn number(word: &str) -> u64 {
    word.parse().unwrap_or_else(|_| stop(&format!("not a number: {word}\n{USAGE}")))
}

fn stop(told: &str) -> ! {
    eprintln!("{told}");
    exit(2)
}
