//! What a journal must give: its table, its notices and its trace, checked on the way against the history.

use std::io;

use crate::file::{FILE_LIMIT, RECORD_LENGTH};
use crate::history::{Call, History};
use crate::journal::{self, Effect, Entries, Entry, Next};
use crate::ledger::Ledger;
use crate::table::table;
use crate::trace::trace;

pub struct Expected {
    pub table: Vec<u8>,
    pub notices: Vec<u8>,
    pub trace: Vec<u8>,
    /// Calls carried out or refused after fresh.
    pub calls: u64,
}

/// Replays a journal three times and works out its history. An error tells how the reference disagrees with itself.
pub fn expect(journal: &[u8]) -> Result<Expected, String> {
    let mut history = history_of(journal);
    let (mut notices, mut out) = (Vec::new(), vec![0; FILE_LIMIT]);
    let (mut changes, mut calls) = (0, 0);
    let mut outcomes = history.as_ref().map_or(vec![], |_| vec!["00".to_string()]);
    let replayed = journal::follow(journal, |ledger, entry| {
        let history = history.as_mut().ok_or_else(|| fault("the history refuses fresh, the ledger does not".into()))?;
        let (effect, outcome) =
            both(ledger, history, entry, &mut out).map_err(|told| fault(format!("call {calls}: {told}")))?;
        outcomes.extend(outcome);
        notices.extend_from_slice(&out[..effect.written]);
        changes += effect.change;
        calls += 1;
        Ok(())
    });
    let replayed = replayed.map_err(|error| error.to_string())?;
    let bare = journal::replay(journal).map_err(|error| error.to_string())?;
    if table(&bare) != table(&replayed) {
        return Err("the table differs when notices are built".into());
    }
    let total = replayed.ledger.as_ref().map_or(0, |ledger| ledger.total().0);
    let sum = history.map_or(0, |history| history.sum());
    if (sum, changes) != (total, total as i64) {
        return Err(format!("total {total}, the history's sum {sum}, the changes add up to {changes}"));
    }
    let mut lines = Vec::new();
    trace(journal, &mut lines).map_err(|error| error.to_string())?;
    same_outcomes(&lines, &outcomes, replayed.stopped)?;
    Ok(Expected { table: table(&replayed), notices, trace: lines, calls })
}

/// The history after fresh, if the journal begins with a good one.
fn history_of(journal: &[u8]) -> Option<History> {
    match Entries::new(journal).read_next() {
        Ok(Next::Entry(Entry::Fresh(body))) => History::fresh(body),
        _ => None,
    }
}

/// A call's cause and, for a file carried out, ACF or the code of each group, as a trace shows them.
type Outcome = Vec<String>;

/// Gives one call to the ledger and to the history; both must name the same cause and the same codes.
fn both(ledger: &mut Ledger, history: &mut History, entry: Entry, out: &mut [u8]) -> Result<(Effect, Outcome), String> {
    let call = match entry {
        Entry::Request(body) => Call::Request(body),
        Entry::File(file) => Call::File(file),
        Entry::Cancel(body) => Call::Cancel(body),
        Entry::Close(body) => Call::Close(body),
        Entry::Removal(body) => Call::Removal(body),
        Entry::Fresh(_) => return Err("a second fresh".into()),
    };
    let past = history.call(call, FILE_LIMIT);
    let result = journal::carry_out(ledger, entry, Some(out));
    let cause = result.err().map(|cause| cause.number());
    if cause != past {
        return Err(format!("cause {cause:?}, but {past:?} by the history"));
    }
    let effect = result.unwrap_or_default();
    let mut outcome = vec![format!("{:02}", past.unwrap_or(0))];
    if let (Entry::File(_), None) = (entry, cause) {
        same_verdicts(&out[..effect.written], effect.accepted, history.verdicts())?;
        let shown = |code: &Option<u8>| code.map_or("ACF".into(), |code| format!("BR{code:02}"));
        outcome.extend(history.verdicts().iter().map(shown));
    }
    Ok((effect, outcome))
}

/// Compares the causes and codes of a trace with the history's, and its last line with the end of the journal.
fn same_outcomes(trace: &[u8], outcomes: &[String], stopped: bool) -> Result<(), String> {
    let text = std::str::from_utf8(trace).map_err(|error| error.to_string())?;
    let lines = text.strip_suffix("stopped,13\n");
    if lines.is_some() != stopped {
        return Err(format!("the trace {}", if stopped { "is not stopped" } else { "is stopped" }));
    }
    let shown: Vec<&str> = lines.unwrap_or(text).lines().map(outcome).collect();
    if shown != outcomes {
        return Err(format!("the trace shows {shown:?}, but {outcomes:?} by the history"));
    }
    Ok(())
}

/// The cause of an entry's line, or what became of a group.
fn outcome(line: &str) -> &str {
    let field = if line.starts_with("group,") { line.rsplit(',').next() } else { line.split(',').nth(2) };
    field.unwrap_or_default()
}

/// Compares a file's notices with the history's verdicts: a header each, and the code of a REJ's details.
fn same_verdicts(notices: &[u8], accepted: usize, verdicts: &[Option<u8>]) -> Result<(), String> {
    let mut shown = Vec::new();
    for record in notices.chunks(RECORD_LENGTH) {
        match (&record[28..30], &record[30..33]) {
            (b"01", b"ACF") => shown.push(None),
            // Until a detail shows the code: a group without details is BR17.
            (b"01", _) => shown.push(Some(17)),
            _ => *shown.last_mut().ok_or("a detail first")? = Some((record[261] - b'0') * 10 + record[262] - b'0'),
        }
    }
    if shown != verdicts || accepted != verdicts.iter().filter(|code| code.is_none()).count() {
        return Err(format!("codes {shown:?} and {accepted} accepted, but {verdicts:?} by the history"));
    }
    Ok(())
}

fn fault(told: String) -> io::Error {
    io::Error::other(told)
}
