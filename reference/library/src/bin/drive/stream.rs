//! Journals streamed entry by entry, as a program would: the bytes lent end anywhere from the next entry's end on.

use reference::generator;
use reference::groups::entry;
use reference::journal::{replay, CANCEL, CLOSE, FILE, FRESH, REMOVAL, REQUEST};
use reference::prng::Prng;
use reference::words;

use crate::base::{ledger, BILLS};
use crate::both::Both;
use crate::call::Call;
use crate::entry::told;
use crate::lists::any_words;
use crate::tally::Tally;

/// Streams the journal of a seed, then asks for the ledger's table; the ledger must be the one that a replay leaves.
pub fn drive(seed: u64, tally: &mut Tally) -> Result<(), String> {
    let journal = generator::make(seed);
    let mut rng = Prng::new(seed ^ 0x57e4_0000_0000_0000);
    let mut both = Both::of(&any_words(&mut rng));
    let (mut at, mut seen) = (0, 0);
    while at < journal.len() {
        let context = |told: String| format!("seed {seed}, entry {seen} of its journal, byte {at}: {told}");
        let length = step(&mut both, tally, &mut rng, &journal[at..], seen).map_err(context)?;
        if length == 0 {
            break;
        }
        at += length;
        seen += 1;
    }
    let context = |told: String| format!("seed {seed}, after its journal: {told}");
    both.plain(tally, &Call::LedgerTable).map_err(context)?;
    let replayed = replay(&journal[..]).map_err(|error| error.to_string())?;
    if replayed.ledger.is_some() && both.ledger() != replayed.ledger.as_ref() {
        return Err(context("the ledger is not the one that a replay leaves".into()));
    }
    Ok(())
}

/// The next entry, now and then after a try with too few bytes, too short an output or another count of entries.
/// Returns the entry's bytes, 0 if the journal ends here.
fn step(both: &mut Both, tally: &mut Tally, rng: &mut Prng, rest: &[u8], seen: u64) -> Result<usize, String> {
    let length = told(rest, seen)[0] as usize;
    let whole = if length == 0 { rest.len() } else { length };
    let entry = |bytes: usize, seen: u64| Call::Entry { journal: rest[..bytes].to_vec(), seen };
    if rng.chance(10) {
        let fewer = *rng.pick(&[0, 1, 2, 3, whole / 2, whole - 1]);
        both.plain(tally, &entry(fewer.min(whole - 1), seen))?;
    }
    if rng.chance(3) {
        let other = *rng.pick(&[1_000_000_000, 1_000_000_001, (1 << 32) + seen, u64::MAX]);
        both.plain(tally, &entry(whole, if seen == 0 { *rng.pick(&[1, 1 << 32, u64::MAX]) } else { other }))?;
    }
    let more = *rng.pick(&[0, 0, 0, 1, 2, 3, 100, rest.len()]);
    let call = entry((whole + more).min(rest.len()), seen);
    let enough = call.output().unwrap_or(0);
    if enough > 0 && rng.chance(10) {
        let short = *rng.pick(&[0, enough - 1, enough / 2]);
        both.call(tally, &call, short)?;
    }
    let output = *rng.pick(&[enough, enough, enough + 1, enough + 321, 64_200.max(enough)]);
    both.call(tally, &call, output)?;
    Ok(length)
}

/// Lengths about those of the entries, their two bytes in both orders.
#[rustfmt::skip]
const SIZES: [usize; 23] = [
    0, 7, 8, 9, 15, 16, 17, 19, 20, 21, 25, 26, 27, 55, 56, 57, 321, 8 << 8, 20 << 8, 26 << 8, 64_200, 64_201, 65_535,
];

/// Every byte as a tag, lengths about the right ones, counts of entries about the limits, and a ledger of another
/// length; each with the body whole, cut short by one and not there, and each tag with no whole length.
pub fn heads(tally: &mut Tally) -> Result<(), String> {
    let words = ledger(&BILLS);
    words::read(&words).ok_or("drive itself takes the ledger for unsound")?;
    for length in [words.len(), words.len() - 1] {
        for tag in 0..=255 {
            cut_short(&words[..length], tag, tally).map_err(|told| format!("tag {tag}, cut short: {told}"))?;
            for size in SIZES {
                if tag < 7 || size == 8 {
                    head(&words[..length], (tag, size), tally)
                        .map_err(|told| format!("tag {tag}, length {size}: {told}"))?;
                }
            }
        }
    }
    good_bodies(&words, tally)
}

/// A tag alone, and with the first byte of a length.
fn cut_short(words: &[u64], tag: u8, tally: &mut Tally) -> Result<(), String> {
    for seen in [0, 1, 1_000_000_000] {
        for journal in [vec![tag], vec![tag, 0]] {
            Both::of(words).call(tally, &Call::Entry { journal, seen }, 642)?;
        }
    }
    Ok(())
}

fn head(words: &[u64], (tag, size): (u8, usize), tally: &mut Tally) -> Result<(), String> {
    let mut journal = entry(tag, &vec![b'1'; size]);
    let whole = journal.len();
    journal.push(b'4');
    for seen in [0, 1, 999_999_999, 1_000_000_000] {
        for bytes in [3, whole - 1, whole, whole + 1] {
            let call = Call::Entry { journal: journal[..bytes.max(3)].to_vec(), seen };
            Both::of(words).call(tally, &call, 642)?;
        }
    }
    Ok(())
}

/// Bodies that are carried out, byte by byte longer, up to one byte too many; and each byte of them made no digit.
fn good_bodies(words: &[u64], tally: &mut Tally) -> Result<(), String> {
    let bodies: [(u8, u64, &[u8]); 6] = [
        (FRESH, 0, b"20171201000000005000000006"),
        (REQUEST, 1, b"ZZC401234567800190009B2017111020171010000000009020171116"),
        (FILE, 2, b""),
        (CANCEL, 3, b"0000000000120007"),
        (CLOSE, 999_999_999, b"20171117"),
        (REMOVAL, 4, b"00000000001220171120"),
    ];
    for (tag, seen, body) in bodies {
        let good = [&entry(tag, body)[..], b"\x05"].concat();
        let context = |told: String| format!("entry with tag {tag}: {told}");
        for bytes in 0..=good.len() {
            let number = Both::of(words).call(tally, &Call::Entry { journal: good[..bytes].to_vec(), seen }, 642);
            let wanted = if bytes < good.len() - 1 { 13 } else { 0 };
            if number.map_err(context)? != wanted {
                return Err(context(format!("{bytes} bytes of it: not {wanted}")));
            }
        }
        for at in 3..good.len() - 1 {
            for byte in b"/:\x00\xb1" {
                let mut journal = good.clone();
                journal[at] = *byte;
                Both::of(words).call(tally, &Call::Entry { journal, seen }, 642).map_err(context)?;
            }
        }
    }
    Ok(())
}
