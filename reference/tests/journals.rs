//! Journals: bad entries, streaming, the history's sum over many seeds, and soundness after every call.

use std::io::{self, Read};

use reference::coverage::Coverage;
use reference::expect::expect;
use reference::groups::entry;
use reference::journal::{self, Entry, Start, CLOSE, FILE, FRESH, REMOVAL, REQUEST};
use reference::prng::Prng;
use reference::sound::is_sound;
use reference::{generator, table};

const FIRST: &[u8; 26] = b"20171113000000001000000001";
const BILL: &[u8; 56] = b"ZZC401234567800190007B2017111320171013000000008520171116";
const HEADING: &str = "account,key,code,kind,seq,ccf,charge,applied,owed,state\n";
const NOTHING: &str = "total,0000000000000000\nstopped,13\n";
const LINE: &str = "123456780019,0007,ZZC40,B,001,0000000085,0000000000000,0000000000000,0000000000000,O\n";

fn printed(journal: &[u8]) -> String {
    String::from_utf8(table::table(&journal::replay(journal).unwrap())).unwrap()
}

#[test]
fn bad_first_entries() {
    let refused = [entry(FRESH, b"20170229000000001000000001"), entry(REQUEST, BILL)].concat();
    let mut long = entry(FRESH, FIRST);
    long[2] = 27;
    for journal in [
        vec![],
        vec![0],
        entry(FRESH, FIRST)[..28].to_vec(),
        refused,
        entry(FRESH, b"20171113000000000000000001"),
        entry(REQUEST, BILL),
        entry(FILE, &[]),
        entry(REMOVAL, b"12345678001920171120"),
        entry(48, FIRST),
        [long, vec![0]].concat(),
    ] {
        assert_eq!(printed(&journal), format!("{HEADING}{NOTHING}"));
    }
    assert_eq!(printed(&entry(FRESH, FIRST)), format!("{HEADING}total,0000000000000000\n"));
}

#[test]
fn bad_later_entries() {
    let good = [entry(FRESH, FIRST), entry(REQUEST, BILL)].concat();
    let more = entry(CLOSE, b"20171120");
    assert_eq!(printed(&good), format!("{HEADING}{LINE}total,0000000000000000\n"));
    for bad in [
        vec![4],
        vec![4, 0],
        more[..10].to_vec(),
        entry(FRESH, FIRST),
        entry(5, b"20171120"),
        entry(6, b"12345678001920171120"),
        entry(REMOVAL, b"123456780019201711200"),
        entry(REMOVAL, b"1234567800192017112"),
        entry(b'5', b"12345678001920171120"),
        entry(255, b""),
        entry(b'4', b"20171120"),
        entry(CLOSE, b"201711200"),
        entry(CLOSE, b"2017112"),
        entry(REQUEST, &BILL[..55]),
        entry(FILE, &[b' '; 64_201]),
        entry(FILE, &[b' '; 64_521]),
    ] {
        let cut = bad.len() < 11 && bad[0] == 4;
        let journal = [&good[..], &bad, if cut { &[] } else { &more }].concat();
        assert_eq!(printed(&journal), format!("{HEADING}{LINE}{NOTHING}"));
    }
}

#[test]
fn refused_calls_are_passed_over() {
    let good = [entry(FRESH, FIRST), entry(REQUEST, BILL)].concat();
    let more = entry(CLOSE, b"20171120");
    for refused in [
        entry(FILE, &[b' '; 64_200]),
        entry(FILE, b"x"),
        entry(CLOSE, b"20171113"),
        entry(REQUEST, &[0; 56]),
        entry(REMOVAL, b"12345678001X20171120"),
        entry(REMOVAL, b"12345678001920171131"),
        entry(REMOVAL, b"12345678001820171120"),
        entry(REMOVAL, &[0; 20]),
    ] {
        let journal = [&good[..], &refused, &more].concat();
        assert_eq!(printed(&journal), format!("{HEADING}{LINE}total,0000000000000000\n").replace(",O\n", ",I\n"));
    }
}

/// Hands a journal over in pieces of random length, and with interruptions.
struct Pieces<'a> {
    rest: &'a [u8],
    rng: Prng,
}

impl Read for Pieces<'_> {
    fn read(&mut self, buffer: &mut [u8]) -> io::Result<usize> {
        if self.rng.chance(5) {
            return Err(io::ErrorKind::Interrupted.into());
        }
        let most = *self.rng.pick(&[1, 3, 100, 70_000]);
        let length = self.rng.range(1, most).min(buffer.len()).min(self.rest.len());
        buffer[..length].copy_from_slice(&self.rest[..length]);
        self.rest = &self.rest[length..];
        Ok(length)
    }
}

#[test]
fn pieces_equal_whole() {
    for seed in 0..60 {
        let journal = generator::make(seed);
        let expected = expect(&journal).unwrap();
        let pieces = || Pieces { rest: &journal, rng: Prng::new(seed) };
        let mut notices = Vec::new();
        let replayed = journal::replay_notices(pieces(), &mut notices).unwrap();
        assert!(notices == expected.notices && table::table(&replayed) == expected.table);
        assert!(table::table(&journal::replay(pieces()).unwrap()) == expected.table);
    }
}

/// The entries one by one from the bytes, with any number of bytes after them, as a program that streams takes them.
#[test]
fn entries_from_bytes() {
    for seed in 0..100 {
        let journal = generator::make(seed);
        let (mut at, mut seen, mut ledger) = (0, 0, None);
        while let Start::Entry(entry, length) = journal::start(&journal[at..], seen) {
            match (entry, &mut ledger) {
                (Entry::Fresh(body), None) => ledger = Some(journal::fresh(body).unwrap()),
                (entry, Some(ledger)) => drop(journal::carry_out(ledger, entry, None)),
                _ => panic!("seed {seed}: an entry before fresh"),
            }
            let alone = &journal[at..at + length];
            assert!(matches!(journal::start(alone, seen), Start::Entry(_, bytes) if bytes == length));
            assert!(matches!(journal::start(&alone[..length - 1], seen), Start::Short));
            assert!(matches!(journal::start(alone, journal::ENTRY_LIMIT), Start::Bad));
            (at, seen) = (at + length, seen + 1);
        }
        let replayed = journal::replay(&journal[..]).unwrap();
        assert!(ledger == replayed.ledger && replayed.stopped == (at < journal.len() || journal.is_empty()));
    }
}

#[test]
fn history_over_seeds() {
    let mut coverage = Coverage::default();
    for seed in 0..400 {
        let journal = generator::make(seed);
        assert!(journal == generator::make(seed), "the same seed gives the same journal");
        let expected = expect(&journal).unwrap_or_else(|told| panic!("seed {seed}: {told}"));
        coverage.merge(&Coverage::of(&journal));
        coverage.trace(&expected.trace);
    }
    assert_eq!(coverage.missing(), Vec::<String>::new());
}

#[test]
fn sound_after_every_call() {
    for seed in 0..150 {
        let journal = generator::make(seed);
        journal::follow(&journal[..], |ledger, entry| {
            let before = ledger.clone();
            match journal::carry_out(ledger, entry, None) {
                Ok(effect) => assert_eq!(ledger.total().0 as i64 - before.total().0 as i64, effect.change),
                Err(_) => assert!(*ledger == before),
            }
            assert!(is_sound(ledger), "seed {seed}");
            Ok(())
        })
        .unwrap();
    }
}
