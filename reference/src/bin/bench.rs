//! bench: how long posted, brn and trace take beside the reference's, and how much memory each needs at most.

use std::fs::{self, File};
use std::io::{self, BufWriter, Read, Write};
use std::path::{Path, PathBuf};
use std::process::{exit, Child, Command, ExitStatus, Stdio};
use std::thread::sleep;
use std::time::{Duration, Instant};

use reference::workload::Workload;

const USAGE: &str = "\
bench [--posted PATH] [--brn PATH] [--trace PATH] [--reference PATH] [--runs N] [--percent P] [--only WORDS]
      [--dir DIR] [--megabytes M] [--limit]
    --posted, --brn, --trace  the programs to measure, some or all
    --reference  what the program named just before is measured against (posted-ref, .. beside this one)
    --runs       runs of each program on each journal, in turn, output dropped (5); one more compares the outputs
    --percent    size of the journals in percent (100: about 10^6 entries, of those without work more)
    --only       only the journals whose name has these words
    --dir        where the journals are kept meanwhile (a directory in the system's temporary one)
    --megabytes  size of the journal streamed to measure memory (1000)
    --limit      instead, posted only: streams 1,000,000,000 entries, then one more, which must be bad (3 GB, twice)";

/// A program to measure, and the reference's that must write the same bytes.
struct Pair {
    /// posted, brn or trace
    name: &'static str,
    program: String,
    reference: String,
}

struct Plan {
    pairs: Vec<Pair>,
    runs: usize,
    percent: u64,
    only: String,
    dir: PathBuf,
    megabytes: u64,
    limit: bool,
}

type Make = fn(BufWriter<File>, u64) -> io::Result<u64>;

/// Name, entries at 100 percent, and how to make so many.
const JOURNALS: &[(&str, u64, Make)] = &[
    ("requests, all taken", 127_872, |out, entries| made(Workload::new(out, 0)?, |work| work.requests(entries))),
    ("requests, most refused with 8", 1_000_000, |out, entries| {
        made(Workload::new(out, 0)?, |work| work.requests(entries))
    }),
    ("RSP, 1 group a file, 128 bills", 1_000_000, |out, files| {
        made(Workload::new(out, 128)?, |work| work.responses(files, 1))
    }),
    ("RSP, 100 groups a file, 128 bills", 5_000, |out, files| {
        made(Workload::new(out, 128)?, |work| work.responses(files, 100))
    }),
    ("mixed, 128 bills", 1_000_000, |out, entries| made(Workload::new(out, 128)?, |work| work.mixed(entries))),
    ("removals, 128 bills", 1_000_000, |out, entries| made(Workload::new(out, 128)?, |work| work.removals(entries))),
    ("late SUPs, BR13 and BR12, 128 bills", 300_000, |out, files| {
        made(Workload::new(out, 0)?, |work| work.late_supplements(files))
    }),
    ("bills held: 1 (RSP, 1 group a file)", 300_000, |out, files| {
        made(Workload::new(out, 1)?, |work| work.responses(files, 1))
    }),
    ("bills held: 16", 300_000, |out, files| made(Workload::new(out, 16)?, |work| work.responses(files, 1))),
    ("bills held: 128", 300_000, |out, files| made(Workload::new(out, 128)?, |work| work.responses(files, 1))),
    ("refused closes, 128 bills", 30_000_000, |out, entries| {
        made(Workload::new(out, 128)?, |work| work.refused_closes(entries))
    }),
    ("empty files, 128 bills", 40_000_000, |out, entries| {
        made(Workload::new(out, 128)?, |work| work.empty_files(entries))
    }),
];

fn main() {
    let plan = read_plan();
    let result = if plan.limit { limit(&plan) } else { plan.pairs.iter().try_for_each(|pair| measure(&plan, pair)) };
    if let Err(error) = result {
        eprintln!("bench: {error}");
        exit(1);
    }
}

fn read_plan() -> Plan {
    let mut plan = Plan {
        pairs: Vec::new(),
        runs: 5,
        percent: 100,
        only: String::new(),
        dir: std::env::temp_dir().join(format!("bench-{}", std::process::id())),
        megabytes: 1000,
        limit: false,
    };
    let mut words = std::env::args().skip(1);
    while let Some(word) = words.next() {
        let mut value = || words.next().unwrap_or_else(|| stop(USAGE));
        match word.as_str() {
            "--posted" => plan.pairs.push(pair("posted", value())),
            "--brn" => plan.pairs.push(pair("brn", value())),
            "--trace" => plan.pairs.push(pair("trace", value())),
            "--reference" => plan.pairs.last_mut().unwrap_or_else(|| stop(USAGE)).reference = value(),
            "--runs" => plan.runs = value().parse().unwrap_or_else(|_| stop(USAGE)),
            "--percent" => plan.percent = value().parse().unwrap_or_else(|_| stop(USAGE)),
            "--only" => plan.only = value(),
            "--dir" => plan.dir = value().into(),
            "--megabytes" => plan.megabytes = value().parse().unwrap_or_else(|_| stop(USAGE)),
            "--limit" => plan.limit = true,
            _ => stop(USAGE),
        }
    }
    if plan.pairs.is_empty() || plan.runs == 0 {
        stop(USAGE);
    }
    plan
}

/// The reference's program stands beside this one.
fn pair(name: &'static str, program: String) -> Pair {
    let folder = std::env::current_exe().ok().and_then(|path| Some(path.parent()?.to_path_buf())).unwrap_or_default();
    Pair { name, program, reference: folder.join(format!("{name}-ref")).display().to_string() }
}

fn measure(plan: &Plan, pair: &Pair) -> io::Result<()> {
    fs::create_dir_all(&plan.dir)?;
    println!("median of {} runs each, in turn; ratio = {} / {}", plan.runs, pair.program, pair.reference);
    println!(
        "{:<36}{:>9}{:>8}{:>12}{:>12}{:>8}{:>8}",
        "journal", "entries", "MB", "ns/entry", "reference", "ratio", "best"
    );
    for (name, entries, make) in JOURNALS.iter().filter(|journal| journal.0.contains(&plan.only)) {
        let path = plan.dir.join("bench.journal");
        let result = one_journal(plan, pair, &path, (name, entries * plan.percent / 100, *make));
        fs::remove_file(&path)?;
        result?;
    }
    // Fails if the directory was there before and holds other files, which is as it should be.
    let _ = fs::remove_dir(&plan.dir);
    println!("peak memory (VmHWM), journal streamed into standard input:");
    for program in [&pair.program, &pair.reference] {
        for megabytes in [1, plan.megabytes] {
            println!("{:>8} kB after {megabytes} MB: {program}", peak_memory(program, megabytes)?);
        }
    }
    Ok(())
}

fn one_journal(plan: &Plan, pair: &Pair, path: &Path, (name, wanted, make): (&str, u64, Make)) -> io::Result<()> {
    let entries = make(BufWriter::with_capacity(1 << 20, File::create(path)?), wanted)?;
    let megabytes = fs::metadata(path)?.len() as f64 / 1e6;
    compare(pair, path).map_err(|error| io::Error::other(format!("{name}: {error}")))?;
    let (mut theirs, mut ours) = (Vec::new(), Vec::new());
    for _ in 0..plan.runs {
        theirs.push(run(&pair.program, path)?);
        ours.push(run(&pair.reference, path)?);
    }
    theirs.sort();
    ours.sort();
    let each = |time: Duration| time.as_nanos() as f64 / entries as f64;
    let middle = plan.runs / 2;
    println!(
        "{name:<36}{entries:>9}{megabytes:>8.0}{:>12.1}{:>12.1}{:>8.2}{:>8.2}",
        each(theirs[middle]),
        each(ours[middle]),
        each(theirs[middle]) / each(ours[middle]),
        each(theirs[0]) / each(ours[0])
    );
    Ok(())
}

fn made<W: Write>(mut work: Workload<W>, fill: impl FnOnce(&mut Workload<W>) -> io::Result<()>) -> io::Result<u64> {
    fill(&mut work)?;
    work.flush()?;
    Ok(work.entries)
}

/// Runs both programs at once, untimed, and compares their outputs piece by piece: notices may not fit into memory.
fn compare(pair: &Pair, journal: &Path) -> io::Result<()> {
    let start = |program| Command::new(program).stdin(File::open(journal)?).stdout(Stdio::piped()).spawn();
    let mut children = [start(&pair.program)?, start(&pair.reference)?];
    let [mut theirs, mut ours] = children.each_mut().map(|child| child.stdout.take().expect("a pipe"));
    let (mut got, mut wanted) = (vec![0], Vec::new());
    while !got.is_empty() {
        read_piece(&mut theirs, &mut got)?;
        read_piece(&mut ours, &mut wanted)?;
        if got != wanted {
            return Err(io::Error::other("the two outputs differ"));
        }
    }
    children
        .iter_mut()
        .zip([&pair.program, &pair.reference])
        .try_for_each(|(child, program)| good(program, child.wait()?))
}

/// The next megabyte, less at the end only.
fn read_piece(output: &mut impl Read, piece: &mut Vec<u8>) -> io::Result<usize> {
    piece.clear();
    output.take(1 << 20).read_to_end(piece)
}

/// The output is dropped, so that the time of a reader is not measured with the program's.
fn run(program: &str, journal: &Path) -> io::Result<Duration> {
    let input = File::open(journal)?;
    let started = Instant::now();
    let status = Command::new(program).stdin(input).stdout(Stdio::null()).status()?;
    let time = started.elapsed();
    good(program, status)?;
    Ok(time)
}

fn good(program: &str, status: ExitStatus) -> io::Result<()> {
    if !status.success() {
        return Err(io::Error::other(format!("{program}: {status}")));
    }
    Ok(())
}

/// Streams a journal and reads the peak before standard input is closed, while the program still waits for more.
fn peak_memory(program: &str, megabytes: u64) -> io::Result<u64> {
    let mut child = Command::new(program).stdin(Stdio::piped()).stdout(Stdio::null()).spawn()?;
    let stdin = child.stdin.take().expect("a pipe");
    let mut work = Workload::new(BufWriter::with_capacity(1 << 20, stdin), 128)?;
    // Half of the bytes in files of one group, half in files of a hundred.
    work.responses(megabytes * 1_000_000 / 2 / 645, 1)?;
    work.responses(megabytes * 1_000_000 / 2 / 64_203 + 1, 100)?;
    work.flush()?;
    sleep(Duration::from_millis(300));
    let status = fs::read_to_string(format!("/proc/{}/status", child.id()))?;
    let peak =
        status.lines().find_map(|line| line.strip_prefix("VmHWM:")?.trim().strip_suffix("kB")?.trim().parse().ok());
    drop(work);
    good(program, child.wait()?)?;
    peak.ok_or_else(|| io::Error::other("no VmHWM in /proc"))
}

fn table_of(mut child: Child) -> io::Result<Vec<u8>> {
    let mut table = Vec::new();
    child.stdout.take().expect("a pipe").read_to_end(&mut table)?;
    child.wait()?;
    Ok(table)
}

/// The entry after the 1,000,000,000th is bad, the one before is not.
fn limit(plan: &Plan) -> io::Result<()> {
    let posted = plan.pairs.iter().find(|pair| pair.name == "posted").unwrap_or_else(|| stop(USAGE));
    for (entries, stopped) in [(1_000_000_000, false), (1_000_000_001, true)] {
        let started = Instant::now();
        let mut child = Command::new(&posted.program).stdin(Stdio::piped()).stdout(Stdio::piped()).spawn()?;
        let stdin = child.stdin.take().expect("a pipe");
        let mut work = Workload::new(BufWriter::with_capacity(1 << 20, stdin), 1)?;
        // A program may stop before the last bytes, so a broken pipe is no fault.
        let _ = work.empty_files(entries).and_then(|()| work.flush());
        drop(work);
        let good = table_of(child)?.ends_with(b"stopped,13\n") == stopped;
        println!(
            "{entries} entries, {:.0} s: {}",
            started.elapsed().as_secs_f64(),
            if good { "right" } else { "WRONG" }
        );
        if !good {
            exit(1);
        }
    }
    Ok(())
}

fn stop(told: &str) -> ! {
    eprintln!("{told}");
    exit(2)
}
