//! journal: makes a journal from a text file, one entry a line.

use std::io::{self, Read, Write};
use std::process::exit;

use reference::fields::{Identity, Product};
use reference::groups::{self, Amounts, Sent};
use reference::journal::{self, Entry, CANCEL, CLOSE, FILE, FRESH, REMOVAL, REQUEST};
use reference::verdict::Notification;
use reference::{Cause, Ledger};

const HELP: &str = "\
journal TEXT [-o JOURNAL]     TEXT may be - for standard input; without -o the journal goes to standard output

Makes a journal from a text file with one entry a line. Blank lines and what follows a # are passed over.

  fresh TODAY TRACKING CONFIRMATION
  request CODE ACCOUNT KEY PRODUCT BILLING FROM CCF SCHEDULED        PRODUCT is B or P
  file PATH                                                          the bytes of a supplier file
  rsp ACCOUNT KEY CHARGE [APPLIED OWED [BALANCE]]                    a file with one RSP for a bill
  sup ACCOUNT KEY CHARGE [APPLIED OWED [BALANCE]]                    a file with one SUP for a bill
  begin                                                              the rsp and sup lines from here ...
  end                                                                ... to here go into one file
  cancel ACCOUNT KEY
  close TODAY
  removal ACCOUNT DATE

Dates are yyyymmdd, charges cents, CCF whole Ccf. Numbers are zero-filled to their width. Fields are not checked
otherwise, so that refused calls can be written too. rsp and sup fill in the rest (rate code, Tracking ID, sequence,
consumption, tier 1) from the bill as the lines before left it; APPLIED, OWED and BALANCE are for Prepay, where a CHARGE
alone stands for applied 0 and owed all. PATH is taken from the directory the command runs in.

A line that cannot be made into an entry is an error (exit status 1) and no journal is written. An entry that is refused
or bad is written all the same, with a note on standard error.

Example (examples/example.txt):
  fresh 20171113 1 1
  request ZZC40 123456780019 0007 B 20171113 20171013 85 20171116
  rsp 123456780019 0007 4250";

/// The journal so far, and the ledger its entries leave.
#[derive(Default)]
struct Scribe {
    journal: Vec<u8>,
    ledger: Option<Ledger>,
    /// Nothing after a bad entry is read.
    stopped: bool,
    /// The groups since `begin`.
    open_file: Option<Vec<Sent>>,
}

fn main() {
    let arguments: Vec<String> = std::env::args().skip(1).collect();
    let words: Vec<&str> = arguments.iter().map(String::as_str).collect();
    let (source, target) = match words[..] {
        ["--help" | "-h"] => return println!("{HELP}"),
        [source] => (source, None),
        [source, "-o", target] => (source, Some(target)),
        _ => stop(HELP),
    };
    let text = read_text(source).unwrap_or_else(|error| stop(&format!("{source}: {error}")));
    let journal = scribe(&text).unwrap_or_else(|told| stop(&format!("{source}: {told}")));
    let written = match target {
        Some(path) => std::fs::write(path, &journal),
        None => io::stdout().write_all(&journal),
    };
    written.unwrap_or_else(|error| stop(&error.to_string()));
}

fn read_text(source: &str) -> io::Result<String> {
    if source != "-" {
        return std::fs::read_to_string(source);
    }
    let mut text = String::new();
    io::stdin().read_to_string(&mut text)?;
    Ok(text)
}

fn scribe(text: &str) -> Result<Vec<u8>, String> {
    let mut scribe = Scribe::default();
    for (at, line) in text.lines().enumerate() {
        let words: Vec<&str> = line.split('#').next().unwrap_or("").split_whitespace().collect();
        let note = scribe.line(&words).map_err(|told| format!("line {}: {told}", at + 1))?;
        if let Some(note) = note {
            eprintln!("line {}: {note}", at + 1);
        }
    }
    match scribe.open_file {
        Some(_) => Err("begin without end".into()),
        None => Ok(scribe.journal),
    }
}

impl Scribe {
    /// Adds the entry of a line; tells if it will be refused or bad.
    fn line(&mut self, words: &[&str]) -> Result<Option<String>, String> {
        let body = match words {
            [] => return Ok(None),
            ["fresh", today, tracking, confirmation] => {
                fields(&[("TODAY", today, 8), ("TRACKING", tracking, 9), ("CONFIRMATION", confirmation, 9)])?
            }
            ["request", code, account, key, product, billing, from, ccf, scheduled] => fields(&[
                ("CODE", code, 5),
                ("ACCOUNT", account, 12),
                ("KEY", key, 4),
                ("PRODUCT", product, 1),
                ("BILLING", billing, 8),
                ("FROM", from, 8),
                ("CCF", ccf, 10),
                ("SCHEDULED", scheduled, 8),
            ])?,
            ["file", path] => std::fs::read(path).map_err(|error| format!("{path}: {error}"))?,
            ["cancel", account, key] => fields(&[("ACCOUNT", account, 12), ("KEY", key, 4)])?,
            ["close", today] => fields(&[("TODAY", today, 8)])?,
            ["removal", account, date] => fields(&[("ACCOUNT", account, 12), ("DATE", date, 8)])?,
            ["rsp", rest @ ..] => return self.group(Notification::Rsp, rest),
            ["sup", rest @ ..] => return self.group(Notification::Sup, rest),
            ["begin"] if self.open_file.is_none() => {
                self.open_file = Some(Vec::new());
                return Ok(None);
            }
            ["end"] => groups::file(&self.open_file.take().ok_or("end without begin")?),
            [word, ..] => return Err(format!("not understood: {word} with {} fields (see --help)", words.len() - 1)),
        };
        if self.open_file.is_some() {
            return Err("only rsp and sup may stand between begin and end".into());
        }
        self.push(tag_of(words[0]), &body)
    }

    fn group(&mut self, notification: Notification, words: &[&str]) -> Result<Option<String>, String> {
        let [account, key, charge, prepaid @ ..] = words else { return Err("ACCOUNT KEY CHARGE are needed".into()) };
        let ledger = self.ledger.as_ref().ok_or("there is no ledger: the fresh is missing or refused")?;
        let identity = Identity::read(&filled("ACCOUNT", account, 12)?, &filled("KEY", key, 4)?);
        let place = identity.and_then(|identity| ledger.place(identity));
        let bill = &ledger.bills()[place.ok_or("there is no such bill")?];
        let charge = cents("CHARGE", charge)?;
        let (applied, owed, balance) = match (bill.product, prepaid) {
            (_, []) => (0, charge, 0),
            (Product::BillReady, _) => return Err("APPLIED and OWED are for Prepay, this bill is Bill Ready".into()),
            (_, [applied, owed]) => (cents("APPLIED", applied)?, cents("OWED", owed)?, 0),
            (_, [applied, owed, balance]) => {
                (cents("APPLIED", applied)?, cents("OWED", owed)?, cents("BALANCE", balance)?)
            }
            _ => return Err("after CHARGE come APPLIED OWED, or APPLIED OWED BALANCE".into()),
        };
        let amounts = Amounts { charge, applied, owed, balance };
        let sent = groups::group(bill, notification, amounts, ledger.today());
        match &mut self.open_file {
            Some(groups) => {
                groups.push(sent);
                Ok(None)
            }
            None => self.push(FILE, &groups::file(&[sent])),
        }
    }

    fn push(&mut self, tag: u8, body: &[u8]) -> Result<Option<String>, String> {
        if body.len() > 65_535 {
            return Err(format!("{} bytes do not fit an entry", body.len()));
        }
        let first = self.journal.is_empty();
        self.journal.extend(groups::entry(tag, body));
        if self.stopped {
            return Ok(Some("comes after a bad entry and will not be read".into()));
        }
        let result = match (tag, &mut self.ledger) {
            (FRESH, ledger) if first => {
                journal::fresh(body.try_into().expect("26 bytes")).map(|fresh| *ledger = Some(fresh))
            }
            (FILE, Some(_)) if body.len() > 64_200 => Err(Cause::BadEntry),
            (REQUEST | FILE | CANCEL | CLOSE | REMOVAL, Some(ledger)) => carry_out(ledger, tag, body),
            _ => Err(Cause::BadEntry),
        };
        self.stopped = self.ledger.is_none() || result == Err(Cause::BadEntry);
        Ok(match result {
            _ if self.stopped => Some("a bad entry (13): a journal stops here".into()),
            Err(cause) => Some(format!("refused with {} and passed over", cause.number())),
            Ok(()) => None,
        })
    }
}

fn tag_of(word: &str) -> u8 {
    match word {
        "fresh" => FRESH,
        "request" => REQUEST,
        "cancel" => CANCEL,
        "close" => CLOSE,
        "removal" => REMOVAL,
        _ => FILE,
    }
}

fn carry_out(ledger: &mut Ledger, tag: u8, body: &[u8]) -> Result<(), Cause> {
    let entry = match tag {
        REQUEST => Entry::Request(body.try_into().expect("56 bytes")),
        CANCEL => Entry::Cancel(body.try_into().expect("16 bytes")),
        CLOSE => Entry::Close(body.try_into().expect("8 bytes")),
        REMOVAL => Entry::Removal(body.try_into().expect("20 bytes")),
        _ => Entry::File(body),
    };
    journal::carry_out(ledger, entry, None).map(|_| ())
}

/// The fields side by side, each in its width.
fn fields(parts: &[(&str, &str, usize)]) -> Result<Vec<u8>, String> {
    let filled: Result<Vec<Vec<u8>>, String> =
        parts.iter().map(|(name, word, width)| filled(name, word, *width)).collect();
    Ok(filled?.concat())
}

/// A field in its width: numbers are zero-filled, anything else must have the width.
fn filled(name: &str, word: &str, width: usize) -> Result<Vec<u8>, String> {
    let is_number = word.bytes().all(|byte| byte.is_ascii_digit());
    match word.len() {
        length if length == width => Ok(word.as_bytes().to_vec()),
        length if length < width && is_number => Ok(format!("{word:0>width$}").into_bytes()),
        length => Err(format!("{name} {word:?} has {length} characters, {width} are needed")),
    }
}

fn cents(name: &str, word: &str) -> Result<u64, String> {
    let wrong = || format!("{name} {word:?} is not a number of at most 13 digits");
    word.parse().ok().filter(|cents| *cents < 10_u64.pow(13)).ok_or_else(wrong)
}

fn stop(told: &str) -> ! {
    eprintln!("{told}");
    exit(1)
}
