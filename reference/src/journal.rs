//! The journal: its entries, which of them are bad, and the replay of a whole journal.

use std::io::{self, BufReader, ErrorKind, Read, Write};

use crate::cause::Cause;
use crate::file::FILE_LIMIT;
use crate::ledger::{Done, FileDone, Ledger};
use crate::notices::NOTICE_LENGTH;
use crate::request::Request;

/// Any entry after this one is bad.
pub const ENTRY_LIMIT: u64 = 1_000_000_000;

pub const FRESH: u8 = 0;
pub const REQUEST: u8 = 1;
pub const FILE: u8 = 2;
pub const CANCEL: u8 = 3;
pub const CLOSE: u8 = 4;
pub const REMOVAL: u8 = 5;

/// An entry that is not bad; the body of each has its right length.
#[derive(Clone, Copy, Debug)]
pub enum Entry<'a> {
    /// today 8, Tracking 9, Confirmation 9
    Fresh(&'a [u8; 26]),
    Request(&'a [u8; 56]),
    File(&'a [u8]),
    /// account 12, key 4
    Cancel(&'a [u8; 16]),
    Close(&'a [u8; 8]),
    /// account 12, date 8
    Removal(&'a [u8; 20]),
}

/// What stands next in a journal.
pub enum Next<'a> {
    Entry(Entry<'a>),
    Bad,
    End,
}

/// Reads entries one by one; it holds one body at most, whatever the journal's length.
pub struct Entries<R> {
    input: BufReader<R>,
    body: Vec<u8>,
    read: u64,
}

impl<R: Read> Entries<R> {
    pub fn new(input: R) -> Self {
        Entries { input: BufReader::with_capacity(1 << 16, input), body: vec![0; FILE_LIMIT], read: 0 }
    }

    pub fn read_next(&mut self) -> io::Result<Next<'_>> {
        let mut tag = [0; 1];
        if !fill(&mut self.input, &mut tag)? {
            return Ok(Next::End);
        }
        let mut length = [0; 2];
        if !fill(&mut self.input, &mut length)? {
            return Ok(Next::Bad);
        }
        let length = usize::from(u16::from_be_bytes(length));
        if !head_is_right(tag[0], length, self.read) {
            return Ok(Next::Bad);
        }
        let body = &mut self.body[..length];
        if !fill(&mut self.input, body)? {
            return Ok(Next::Bad);
        }
        self.read += 1;
        Ok(entry(tag[0], body).map_or(Next::Bad, Next::Entry))
    }
}

/// What stands at the start of some bytes of a journal.
pub enum Start<'a> {
    /// An entry, and its bytes with tag and length.
    Entry(Entry<'a>, usize),
    /// The bytes end before the entry does.
    Short,
    Bad,
}

/// The entry that begins these bytes, before which so many came; a refused fresh is a bad entry.
pub fn start(bytes: &[u8], seen: u64) -> Start<'_> {
    let [tag, high, low, rest @ ..] = bytes else { return Start::Short };
    let length = usize::from(u16::from_be_bytes([*high, *low]));
    if !head_is_right(*tag, length, seen) {
        return Start::Bad;
    }
    let Some(body) = rest.get(..length) else { return Start::Short };
    match entry(*tag, body) {
        Some(Entry::Fresh(body)) if fresh(body).is_err() => Start::Bad,
        Some(entry) => Start::Entry(entry, 3 + length),
        None => Start::Bad,
    }
}

/// Fresh is the first entry and no other; no entry comes after the 1,000,000,000th.
fn head_is_right(tag: u8, length: usize, seen: u64) -> bool {
    (seen == 0) == (tag == FRESH) && length_is_right(tag, length) && seen < ENTRY_LIMIT
}

/// A tag that is none has no right length.
fn length_is_right(tag: u8, length: usize) -> bool {
    match tag {
        FRESH => length == 26,
        REQUEST => length == 56,
        FILE => length <= FILE_LIMIT,
        CANCEL => length == 16,
        CLOSE => length == 8,
        REMOVAL => length == 20,
        _ => false,
    }
}

fn entry(tag: u8, body: &[u8]) -> Option<Entry<'_>> {
    match tag {
        FRESH => body.try_into().ok().map(Entry::Fresh),
        REQUEST => body.try_into().ok().map(Entry::Request),
        FILE => Some(Entry::File(body)),
        CANCEL => body.try_into().ok().map(Entry::Cancel),
        CLOSE => body.try_into().ok().map(Entry::Close),
        REMOVAL => body.try_into().ok().map(Entry::Removal),
        _ => None,
    }
}

/// Fills the buffer; false if the input ended first.
fn fill(input: &mut impl Read, buffer: &mut [u8]) -> io::Result<bool> {
    match input.read_exact(buffer) {
        Ok(()) => Ok(true),
        Err(error) if error.kind() == ErrorKind::UnexpectedEof => Ok(false),
        Err(error) => Err(error),
    }
}

/// What a call of the journal did, for those that follow the replay.
#[derive(Clone, Copy, Debug, Default, PartialEq, Eq)]
pub struct Effect {
    pub change: i64,
    pub written: usize,
    pub accepted: usize,
    pub rejected: usize,
    /// Bills that a close found open and left otherwise.
    pub closed: usize,
}

impl From<Done> for Effect {
    fn from(done: Done) -> Effect {
        Effect { change: done.change, written: done.written, ..Effect::default() }
    }
}

impl From<FileDone> for Effect {
    fn from(done: FileDone) -> Effect {
        let FileDone { accepted, rejected, change, written } = done;
        Effect { change, written, accepted, rejected, closed: 0 }
    }
}

/// Carries out one entry after fresh. None for `out`: the notices are dropped, so they need not be built.
pub fn carry_out(ledger: &mut Ledger, entry: Entry, out: Option<&mut [u8]>) -> Result<Effect, Cause> {
    match entry {
        // Entries hands out fresh as the first entry only.
        Entry::Fresh(_) => Err(Cause::BadEntry),
        Entry::Request(body) => Ok(ledger.request(&Request::read(body)?, out)?.into()),
        Entry::File(body) => Ok(ledger.file(body, out)?.into()),
        Entry::Cancel(body) => Ok(ledger.cancel(&body[..12], &body[12..], out)?.into()),
        Entry::Close(body) => Ok(Effect { closed: ledger.close(body)?, ..Effect::default() }),
        Entry::Removal(body) => ledger.removal(&body[..12], &body[12..]).map(|()| Effect::default()),
    }
}

pub fn fresh(body: &[u8; 26]) -> Result<Ledger, Cause> {
    Ledger::fresh(&body[..8], &body[8..17], &body[17..])
}

/// The end of a replay. No ledger: the journal was empty, or its first entry bad or a refused fresh.
#[derive(Debug)]
pub struct Replayed {
    pub ledger: Option<Ledger>,
    /// A bad entry stopped it.
    pub stopped: bool,
}

/// Replays a journal for its table.
pub fn replay(journal: impl Read) -> io::Result<Replayed> {
    follow(journal, |ledger, entry| {
        // A refused call is passed over.
        let _ = carry_out(ledger, entry, None);
        Ok(())
    })
}

/// Replays a journal and writes the notices of every call carried out.
pub fn replay_notices(journal: impl Read, notices: &mut impl Write) -> io::Result<Replayed> {
    let mut out = vec![0; FILE_LIMIT];
    follow(journal, |ledger, entry| match carry_out(ledger, entry, Some(&mut out)) {
        Ok(effect) => notices.write_all(&out[..effect.written]),
        Err(_) => Ok(()),
    })
}

/// No journal with these entries has longer notices: a request or a cancel writes one, a file no more than it has.
pub fn longest_notices(journal: &[u8]) -> usize {
    let (mut seen, mut at, mut longest) = (0, 0, 0);
    while let Start::Entry(entry, length) = start(&journal[at..], seen) {
        longest += match entry {
            Entry::Request(_) | Entry::Cancel(_) => NOTICE_LENGTH,
            Entry::File(file) => file.len(),
            Entry::Fresh(_) | Entry::Close(_) | Entry::Removal(_) => 0,
        };
        (seen, at) = (seen + 1, at + length);
    }
    longest
}

/// Gives every entry after a good fresh to `call`, up to the end or a bad entry.
pub fn follow(journal: impl Read, mut call: impl FnMut(&mut Ledger, Entry) -> io::Result<()>) -> io::Result<Replayed> {
    let mut entries = Entries::new(journal);
    let begun = match entries.read_next()? {
        Next::Entry(Entry::Fresh(body)) => fresh(body).ok(),
        _ => None,
    };
    let Some(mut ledger) = begun else { return Ok(Replayed { ledger: None, stopped: true }) };
    loop {
        match entries.read_next()? {
            Next::Entry(entry) => call(&mut ledger, entry)?,
            Next::Bad => return Ok(Replayed { ledger: Some(ledger), stopped: true }),
            Next::End => return Ok(Replayed { ledger: Some(ledger), stopped: false }),
        }
    }
}
