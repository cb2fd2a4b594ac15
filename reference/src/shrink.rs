//! Makes a journal smaller as long as a difference stays: first whole entries go, then groups of files.

use crate::file::{groups, records};
use crate::groups::entry;
use crate::journal::FILE;

/// The smallest journal found for which `differs` is still true.
pub fn shrink(journal: &[u8], differs: impl Fn(&[u8]) -> bool) -> Vec<u8> {
    let mut entries = split(journal);
    drop_pieces(&mut entries, 1, |entries| differs(&entries.concat()));
    for at in 0..entries.len() {
        let Some(mut groups) = groups_of(&entries[at]) else { continue };
        let with = |groups: &[Vec<u8>]| {
            let mut changed = entries.clone();
            changed[at] = entry(FILE, &groups.concat());
            changed
        };
        drop_pieces(&mut groups, 0, |groups| differs(&with(groups).concat()));
        entries[at] = entry(FILE, &groups.concat());
    }
    entries.concat()
}

/// Drops pieces, at first many at a time, but never the first `kept`.
fn drop_pieces(pieces: &mut Vec<Vec<u8>>, kept: usize, differs: impl Fn(&[Vec<u8>]) -> bool) {
    let mut size = pieces.len().max(1);
    loop {
        let mut at = kept;
        while at < pieces.len() {
            let mut fewer = pieces.clone();
            fewer.drain(at..(at + size).min(pieces.len()));
            if differs(&fewer) {
                *pieces = fewer;
            } else {
                at += size;
            }
        }
        if size == 1 {
            return;
        }
        size /= 2;
    }
}

/// The entries of a journal; what is cut short at the end is the last piece.
pub fn split(journal: &[u8]) -> Vec<Vec<u8>> {
    let mut entries = Vec::new();
    let mut rest = journal;
    while let [_, high, low, ..] = rest {
        let length = (3 + usize::from(u16::from_be_bytes([*high, *low]))).min(rest.len());
        let (entry, after) = rest.split_at(length);
        entries.push(entry.to_vec());
        rest = after;
    }
    if !rest.is_empty() {
        entries.push(rest.to_vec());
    }
    entries
}

/// The groups of an entry that is a good file, as bytes.
fn groups_of(entry: &[u8]) -> Option<Vec<Vec<u8>>> {
    let (FILE, body) = (*entry.first()?, entry.get(3..)?) else { return None };
    let groups = groups(records(body).ok()?);
    Some(groups.iter().map(|group| [&group.header[..], group.details.as_flattened()].concat()).collect())
}
