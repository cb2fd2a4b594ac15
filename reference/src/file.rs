//! The supplier file: its records, whether it is good at all (cause 11), and its groups.

use crate::cause::Cause;
use crate::fields::put_number;

/// 320 bytes of codes 32 to 126, then byte 13.
pub const RECORD_LENGTH: usize = 321;
/// At most 200 records.
pub const FILE_LIMIT: usize = 200 * RECORD_LENGTH;

pub type Record = [u8; RECORD_LENGTH];

/// Positions `from` to `to` of a record, counted from 1.
#[inline]
pub fn at(record: &Record, from: usize, to: usize) -> &[u8] {
    &record[from - 1..to]
}

/// A record of spaces.
pub fn blank() -> Record {
    let mut record = [b' '; RECORD_LENGTH];
    record[RECORD_LENGTH - 1] = 13;
    record
}

/// Puts text at a position counted from 1.
pub fn text(record: &mut Record, position: usize, text: &[u8]) {
    record[position - 1..position - 1 + text.len()].copy_from_slice(text);
}

/// Puts a zero-filled number of `width` digits at a position counted from 1.
pub fn number(record: &mut Record, position: usize, width: usize, number: u64) {
    put_number(&mut record[position - 1..position - 1 + width], number);
}

/// A header and the details up to the next header.
#[derive(Clone, Copy)]
pub struct Group<'a> {
    pub header: &'a Record,
    pub details: &'a [Record],
}

impl Group<'_> {
    /// The header's Notification Code as sent.
    pub fn notification(&self) -> &[u8] {
        at(self.header, 31, 33)
    }

    pub fn records(&self) -> usize {
        1 + self.details.len()
    }
}

/// The records of a file, or 11: length no multiple of 321 or over 64,200, a byte or type not as above,
/// first record no header. An empty file is good.
pub fn records(file: &[u8]) -> Result<&[Record], Cause> {
    let (records, rest) = file.as_chunks::<RECORD_LENGTH>();
    let good = rest.is_empty()
        && file.len() <= FILE_LIMIT
        && records.iter().all(|record| bytes_are_good(record) && (is_header(record) || is_detail(record)))
        && records.first().is_none_or(is_header);
    if good {
        Ok(records)
    } else {
        Err(Cause::BadFile)
    }
}

/// The groups of a good file.
pub fn groups(records: &[Record]) -> Vec<Group<'_>> {
    let mut groups = Vec::with_capacity(records.len());
    let mut rest = records;
    while let Some((header, after)) = rest.split_first() {
        let count = after.iter().take_while(|record| !is_header(record)).count();
        let (details, next) = after.split_at(count);
        groups.push(Group { header, details });
        rest = next;
    }
    groups
}

fn bytes_are_good(record: &Record) -> bool {
    // Looks at all 320 even after a bad one, which lets the compiler take many bytes at a time.
    let text = record[..320].iter().fold(true, |good, byte| good & (32..=126).contains(byte));
    text && record[320] == 13
}

fn is_header(record: &Record) -> bool {
    at(record, 29, 30) == b"01"
}

fn is_detail(record: &Record) -> bool {
    at(record, 29, 30) == b"02"
}
