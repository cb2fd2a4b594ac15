//! The journals that the programs are given, and the holidays for business_day.

use std::path::PathBuf;
use std::{fs, io};

use reference::calendar::{moved, HOLIDAY_LIMIT};
use reference::generator;
use reference::groups::entry;
use reference::shrink::split;
use reference::workload::Workload;

use crate::program::{Kind, Place, OF_JOURNALS};

pub struct Journal {
    pub name: String,
    pub bytes: Vec<u8>,
    pub path: PathBuf,
    /// The bytes up to each entry's end, or each line's, all of them last.
    pub ends: Vec<usize>,
    /// What each program that reads it must write to standard output and to standard error.
    expected: Vec<(Kind, (Vec<u8>, String))>,
}

impl Journal {
    fn new(place: &Place, name: &str, bytes: Vec<u8>) -> io::Result<Journal> {
        let lengths: Vec<usize> = split(&bytes).into_iter().map(|entry| entry.len()).collect();
        Journal::of(place, OF_JOURNALS, name, bytes, lengths)
    }

    /// Lines of holidays.
    fn holidays(place: &Place, name: &str, lines: &str) -> io::Result<Journal> {
        let lengths = lines.split_inclusive('\n').map(str::len).collect();
        Journal::of(place, &[Kind::BusinessDay], name, lines.into(), lengths)
    }

    fn of(place: &Place, kinds: &[Kind], name: &str, bytes: Vec<u8>, lengths: Vec<usize>) -> io::Result<Journal> {
        let path = place.folder.join(name.replace([' ', ','], "-"));
        fs::write(&path, &bytes)?;
        let expected = |kind: &Kind| Ok((*kind, kind.expected(&bytes).map_err(io::Error::other)?));
        let expected = kinds.iter().map(expected).collect::<io::Result<_>>()?;
        let ends = lengths.into_iter().scan(0, |end, length| {
            *end += length;
            Some(*end)
        });
        Ok(Journal { name: name.into(), ends: ends.collect(), bytes, path, expected })
    }

    pub fn expected(&self, kind: Kind) -> &(Vec<u8>, String) {
        let of_kind = self.expected.iter().find(|expected| expected.0 == kind);
        &of_kind.expect("a program that reads this").1
    }
}

pub struct Journals {
    /// Good ones, short.
    pub good: Vec<Journal>,
    /// Ones that a bad entry stops; holidays that are refused, or none.
    pub stopped: Vec<Journal>,
    /// A good one of some 800,000 bytes, or of all the holidays that may be.
    pub long: Journal,
    /// After how many bytes of it reads are made to fail.
    pub places: Vec<usize>,
}

/// So many bills, files of one RSP and of several, a removal, a cancel that is refused, a close.
fn journal(bills: usize, files: u64) -> io::Result<Vec<u8>> {
    let mut bytes = Vec::new();
    let mut work = Workload::new(&mut bytes, bills)?;
    work.responses(files, 1)?;
    work.responses(1, bills.min(3))?;
    bytes.extend(entry(5, b"12345678000019000101"));
    bytes.extend(entry(3, b"9999999999999999"));
    bytes.extend(entry(2, b""));
    bytes.extend(entry(4, b"19000102"));
    Ok(bytes)
}

/// So many of them from seeds.
pub fn make(place: &Place, seeds: usize) -> io::Result<Journals> {
    let small = journal(1, 1)?;
    let with = |bad: &[u8]| [&small[..], bad].concat();
    let stopped = [
        ("empty", vec![]),
        ("refused fresh", entry(0, b"20170229000000001000000001")),
        ("another tag first", entry(4, b"20171120")),
        ("stray byte", with(&[4])),
        ("cut short in the body", with(&entry(4, b"20171120")[..8])),
        ("cut short in a removal", with(&entry(5, b"12345678000019000101")[..15])),
        ("removal of a wrong length", with(&entry(5, b"123456780000"))),
        ("bad tag", with(&entry(6, b""))),
        ("bad entry, then good ones", [with(&entry(0, b"")), small.clone()].concat()),
    ];
    let of_length =
        (1..).map(|seed| (seed, generator::make(seed))).filter(|(_, bytes)| (2000..20_000).contains(&bytes.len()));
    let (good, bad): (Vec<_>, Vec<_>) = of_length.take(seeds).partition(|(_, bytes)| !is_stopped(bytes));
    let of_seeds = |seeds: Vec<(u64, Vec<u8>)>| -> io::Result<Vec<Journal>> {
        seeds.into_iter().map(|(seed, bytes)| Journal::new(place, &format!("seed {seed}"), bytes)).collect()
    };
    let mut all_good = vec![
        Journal::new(place, "fresh alone", entry(0, b"20171113000000001000000001"))?,
        Journal::new(place, "one bill", small.clone())?,
        Journal::new(place, "eight bills", journal(8, 5)?)?,
    ];
    all_good.extend(of_seeds(good)?);
    let mut all_stopped: Vec<Journal> =
        stopped.into_iter().map(|(name, bytes)| Journal::new(place, name, bytes)).collect::<io::Result<_>>()?;
    all_stopped.extend(of_seeds(bad)?);
    let long = Journal::new(place, "long", journal(128, 1200)?)?;
    let places = [long.ends[0], long.ends[200], long.ends[200] + 1, long.ends[1000], 1 << 18, 1 << 19].to_vec();
    Ok(Journals { good: all_good, stopped: all_stopped, long, places })
}

/// Holidays for business_day; the answers to the good ones differ, so that one line left out shows.
pub fn make_holidays(place: &Place) -> io::Result<Journals> {
    let days = |count: usize| (1..=count as isize).filter_map(|days| moved(20171113, days));
    let lines = |count: usize| days(count).map(|day| format!("{day}\n")).collect::<String>();
    let good = [
        ("one holiday", lines(1)),
        ("two holidays", lines(2)),
        ("three, no byte 10 at the end", lines(3).trim_end().to_string()),
        ("four holidays", lines(4)),
    ];
    let stopped = [
        ("no holidays", String::new()),
        ("an empty line", format!("{}\n", lines(2))),
        ("no date", lines(2) + "20171131\n"),
        ("falling", lines(2) + &lines(1)),
        ("one too many", lines(HOLIDAY_LIMIT + 1)),
        ("many too many", lines(20_000)),
        ("a long line", "20171114".repeat(10_000)),
    ];
    let made = |(name, lines): (&str, String)| Journal::holidays(place, name, &lines);
    let long = Journal::holidays(place, "all there may be", &lines(HOLIDAY_LIMIT))?;
    Ok(Journals {
        good: good.into_iter().map(made).collect::<io::Result<_>>()?,
        stopped: stopped.into_iter().map(made).collect::<io::Result<_>>()?,
        places: [0, 1, long.ends[30] - 1, long.ends[30], long.ends[62], long.ends[62] + 1].to_vec(),
        long,
    })
}

fn is_stopped(journal: &[u8]) -> bool {
    reference::journal::replay(journal).is_ok_and(|replayed| replayed.stopped)
}
