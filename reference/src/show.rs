//! A journal as a person reads it: every entry with what the reference makes of it.

use crate::file::{FILE_LIMIT, RECORD_LENGTH};
use crate::journal::{carry_out, fresh, Entries, Entry, Next};
use crate::shrink::split;

/// A listing: number, entry and outcome, and below it the records of a file (>) and of the notices (<).
pub fn show(journal: &[u8]) -> String {
    let mut entries = Entries::new(journal);
    let mut ledger = None;
    let mut out = vec![0; FILE_LIMIT];
    let mut listing = String::new();
    for (number, bytes) in split(journal).iter().enumerate() {
        let Ok(Next::Entry(entry)) = entries.read_next() else {
            return listing + &format!("{number} BAD, tag {}, {} bytes: stopped\n", bytes[0], bytes.len());
        };
        let outcome = match (entry, &mut ledger) {
            (Entry::Fresh(body), _) => fresh(body).map(|fresh| {
                ledger = Some(fresh);
                (0, 0)
            }),
            (_, Some(ledger)) => carry_out(ledger, entry, Some(&mut out)).map(|e| (e.change, e.written)),
            (_, None) => return listing,
        };
        let told = match outcome {
            Ok((change, _)) => format!("done, change {change}"),
            Err(cause) => format!("cause {}", cause.number()),
        };
        listing += &format!("{number} {}: {told}\n", describe(entry));
        if let Entry::File(file) = entry {
            listing += &lines('>', file);
        }
        listing += &lines('<', &out[..outcome.map_or(0, |outcome| outcome.1)]);
        if ledger.is_none() {
            return listing + "a refused fresh: stopped\n";
        }
    }
    listing
}

fn describe(entry: Entry) -> String {
    let (name, body): (&str, &[u8]) = match entry {
        Entry::Fresh(body) => ("fresh", body),
        Entry::Request(body) => ("request", body),
        Entry::Cancel(body) => ("cancel", body),
        Entry::Close(body) => ("close", body),
        Entry::Removal(body) => ("removal", body),
        Entry::File(file) => return format!("file of {} bytes", file.len()),
    };
    format!("{name} {}", body.escape_ascii())
}

fn lines(mark: char, bytes: &[u8]) -> String {
    let line = |record: &[u8]| format!("  {mark} {}\n", record.trim_ascii_end().escape_ascii());
    bytes.chunks(RECORD_LENGTH).map(line).collect()
}
