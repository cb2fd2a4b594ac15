//! The trace: what became of each entry of a journal, and of each group of a file; the bytes `trace` prints.

use std::io::{self, Read, Write};

use crate::cause::Cause;
use crate::fields::push_number;
use crate::file::at;
use crate::journal::{carry_out, fresh, Effect, Entries, Entry, Next};
use crate::ledger::{Decided, Ledger};

/// Writes the trace of a journal, entry by entry; it holds the lines of one entry at most.
pub fn trace(journal: impl Read, out: &mut impl Write) -> io::Result<()> {
    let mut entries = Entries::new(journal);
    let mut ledger = None;
    let (mut lines, mut groups) = (Vec::new(), Vec::new());
    for number in 1.. {
        let entry = match entries.read_next()? {
            Next::Entry(entry) => entry,
            Next::End if ledger.is_some() => return Ok(()),
            Next::End | Next::Bad => break,
        };
        lines.clear();
        groups.clear();
        let result = match (entry, &mut ledger) {
            (Entry::Fresh(body), None) => match fresh(body) {
                Ok(new) => {
                    ledger = Some(new);
                    Ok(Effect::default())
                }
                // A bad entry.
                Err(_) => break,
            },
            (entry, Some(ledger)) => call(ledger, entry, &mut groups),
            (_, None) => break,
        };
        put_entry(&mut lines, number, entry, result);
        lines.extend_from_slice(&groups);
        out.write_all(&lines)?;
    }
    out.write_all(b"stopped,13\n")
}

/// Carries out an entry after fresh; a file adds the lines of its groups.
fn call(ledger: &mut Ledger, entry: Entry, groups: &mut Vec<u8>) -> Result<Effect, Cause> {
    match entry {
        Entry::File(file) => Ok(ledger.file_telling(file, None, |decided| put_group(groups, &decided))?.into()),
        other => carry_out(ledger, other, None),
    }
}

/// Number, call, cause, change, accepted, rejected, closed; a refused call has no figures.
fn put_entry(lines: &mut Vec<u8>, number: u64, entry: Entry, result: Result<Effect, Cause>) {
    let cause = result.err().map_or(0, Cause::number);
    let effect = result.unwrap_or_default();
    push_number(lines, 10, number);
    lines.push(b',');
    lines.extend_from_slice(name(entry).as_bytes());
    lines.push(b',');
    push_number(lines, 2, cause.into());
    lines.push(b',');
    lines.push(if effect.change < 0 { b'-' } else { b'0' });
    push_number(lines, 16, effect.change.unsigned_abs());
    for count in [effect.accepted, effect.rejected, effect.closed] {
        lines.push(b',');
        push_number(lines, 3, count as u64);
    }
    lines.push(b'\n');
}

fn name(entry: Entry) -> &'static str {
    match entry {
        Entry::Fresh(_) => "fresh",
        Entry::Request(_) => "request",
        Entry::File(_) => "file",
        Entry::Cancel(_) => "cancel",
        Entry::Close(_) => "close",
        Entry::Removal(_) => "removal",
    }
}

/// Confirmation Number; account, Bill Key (of the first detail) and Notification Code as sent; ACF or the error code.
fn put_group(lines: &mut Vec<u8>, decided: &Decided) {
    let group = &decided.group;
    lines.extend_from_slice(b"group,");
    push_number(lines, 9, decided.confirmation.into());
    lines.push(b',');
    lines.extend_from_slice(at(group.header, 8, 19));
    lines.push(b',');
    lines.extend_from_slice(group.details.first().map_or(b"    ", |detail| at(detail, 42, 45)));
    lines.push(b',');
    lines.extend_from_slice(group.notification());
    lines.push(b',');
    match decided.code {
        Some(code) => lines.extend_from_slice(&code.text()),
        None => lines.extend_from_slice(b"ACF"),
    }
    lines.push(b'\n');
}
