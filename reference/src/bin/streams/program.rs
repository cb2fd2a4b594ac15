//! A program that is tried, and one run of it.

use std::fs::{self, File};
use std::io::{self, Read, Write};
use std::path::{Path, PathBuf};
use std::process::{Command, ExitStatus, Stdio};
use std::thread::{self, JoinHandle};
use std::time::{Duration, Instant};

use reference::calendar;
use reference::expect::expect;

use crate::standin::{Fault, STAND_IN};

/// How long a run may take.
const PATIENCE: Duration = Duration::from_secs(10);

#[derive(Clone, Copy, Debug, PartialEq, Eq)]
pub enum Kind {
    Posted,
    Brn,
    Trace,
    BusinessDay,
}

pub const KINDS: [Kind; 4] = [Kind::Posted, Kind::Brn, Kind::Trace, Kind::BusinessDay];
/// Those that read a journal.
pub const OF_JOURNALS: &[Kind] = &[Kind::Posted, Kind::Brn, Kind::Trace];

impl Kind {
    pub fn name(self) -> &'static str {
        match self {
            Kind::Posted => "posted",
            Kind::Brn => "brn",
            Kind::Trace => "trace",
            Kind::BusinessDay => "business_day",
        }
    }

    /// What it is started with.
    pub fn arguments(self) -> &'static [&'static str] {
        match self {
            Kind::BusinessDay => &["20171113", "3"],
            _ => &[],
        }
    }

    /// What it must write to standard output and to standard error.
    pub fn expected(self, input: &[u8]) -> Result<(Vec<u8>, String), String> {
        if let (Kind::BusinessDay, [date, number]) = (self, self.arguments()) {
            return Ok((calendar::program(date.as_bytes(), number.as_bytes(), input).into_bytes(), String::new()));
        }
        let expected = expect(input)?;
        let stopped = expected.table.ends_with(b"stopped,13\n");
        Ok(match self {
            Kind::Posted => (expected.table, String::new()),
            Kind::Brn => (expected.notices, if stopped { "stopped,13\n".into() } else { String::new() }),
            _ => (expected.trace, String::new()),
        })
    }
}

pub struct Program {
    pub kind: Kind,
    pub path: PathBuf,
    /// For a stand-in, its fault.
    pub stand_in: Option<Fault>,
}

/// The shim, and a folder for journals.
pub struct Place {
    pub shim: PathBuf,
    pub folder: PathBuf,
}

impl Place {
    pub fn new(shim: PathBuf) -> io::Result<Place> {
        let folder = std::env::temp_dir().join(format!("streams-{}", std::process::id()));
        fs::create_dir_all(&folder)?;
        Ok(Place { shim: fs::canonicalize(shim)?, folder })
    }

    pub fn remove(&self) {
        let _ = fs::remove_dir_all(&self.folder);
    }
}

/// Where standard input comes from.
pub enum Input<'a> {
    File(&'a Path),
    /// A pipe, into which pieces of so many bytes are written one after another.
    Pipe(&'a [u8], usize),
}

/// What a run left.
pub struct Outcome {
    pub output: Vec<u8>,
    pub error: String,
    pub status: ExitStatus,
}

impl Program {
    /// The program, and whatever its stand-in needs to know.
    pub fn command(&self) -> Command {
        let mut command = Command::new(&self.path);
        command.args(self.kind.arguments());
        if let Some(fault) = self.stand_in {
            command.env(STAND_IN, format!("{} {fault:?}", self.kind.name()));
        }
        command
    }

    /// With the shim and its settings (the names of programs/shim.c without SHIM_).
    pub fn with_shim(&self, place: &Place, settings: &[(&str, usize)]) -> Command {
        let mut command = self.command();
        command.env("LD_PRELOAD", &place.shim);
        for (name, value) in settings {
            command.env(format!("SHIM_{name}"), value.to_string());
        }
        command
    }
}

/// Runs a command to its end; an error tells why there is none.
pub fn run(mut command: Command, input: Input) -> Result<Outcome, String> {
    let source = match input {
        Input::File(path) => Stdio::from(File::open(path).map_err(|error| error.to_string())?),
        Input::Pipe(..) => Stdio::piped(),
    };
    let spawned = command.stdin(source).stdout(Stdio::piped()).stderr(Stdio::piped()).spawn();
    finish(spawned.map_err(|error| error.to_string())?, input)
}

/// Waits for the end while what it writes is read.
fn finish(mut child: std::process::Child, input: Input) -> Result<Outcome, String> {
    let (output, error) = (collect(child.stdout.take()), collect(child.stderr.take()));
    if let (Input::Pipe(bytes, size), Some(mut stdin)) = (input, child.stdin.take()) {
        // A program may stop reading at a bad entry, so a broken pipe is no fault.
        let _ = bytes.chunks(size).try_for_each(|piece| stdin.write_all(piece));
    }
    let started = Instant::now();
    let status = loop {
        match child.try_wait().map_err(|error| error.to_string())? {
            Some(status) => break status,
            None if started.elapsed() > PATIENCE => {
                let _ = child.kill().and_then(|()| child.wait().map(drop));
                return Err(format!("did not end within {} s", PATIENCE.as_secs()));
            }
            None => thread::sleep(Duration::from_micros(300)),
        }
    };
    let [output, error] = [output, error].map(|thread| thread.join().expect("no thread panics"));
    let outcome = Outcome { output, error: String::from_utf8_lossy(&error).into_owned(), status };
    match status.code() {
        None => Err(format!("ended by a signal ({status})")),
        Some(96) => Err("tries a failing read or write again and again".into()),
        Some(97) => Err("reads another descriptor than 0".into()),
        Some(98) => Err("writes another descriptor than 1 and 2".into()),
        Some(_) => Ok(outcome),
    }
}

fn collect(pipe: Option<impl Read + Send + 'static>) -> JoinHandle<Vec<u8>> {
    thread::spawn(move || {
        let mut bytes = Vec::new();
        let _ = pipe.map(|mut pipe| pipe.read_to_end(&mut bytes));
        bytes
    })
}
