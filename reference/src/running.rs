//! Running a program from outside: what it writes for some input, and how it answers to other arguments than it takes.

use std::io::{self, Read, Write};
use std::process::{Child, Command, ExitStatus, Stdio};
use std::thread::{self, JoinHandle};
use std::time::{Duration, Instant};

/// How long a program may take to say how it is used.
const PATIENCE: Duration = Duration::from_secs(10);
/// Waits on standard input meanwhile, to be left there: a good entry, which a program that reads would take.
const WAITING: &[u8] = b"\x00\x00\x1a20171113000000001000000001";

/// What a program left.
pub struct Ran {
    pub output: Vec<u8>,
    /// The start of it.
    pub error: String,
    pub status: ExitStatus,
}

/// Runs a program with this on its standard input, written by a thread so that neither side waits for ever.
pub fn run(path: &str, arguments: &[impl AsRef<std::ffi::OsStr>], input: &[u8]) -> io::Result<Ran> {
    let mut command = Command::new(path);
    command.args(arguments).stdin(Stdio::piped()).stdout(Stdio::piped()).stderr(Stdio::piped());
    let mut child = command.spawn()?;
    let error = collect(child.stderr.take());
    let (stdin, stdout) = (child.stdin.take(), child.stdout.take());
    let mut output = Vec::new();
    thread::scope(|scope| {
        // A program may stop reading early, so a broken pipe is no fault.
        scope.spawn(move || stdin.map(|mut stdin| stdin.write_all(input)));
        stdout.map_or(Ok(0), |mut stdout| stdout.read_to_end(&mut output))
    })?;
    let status = child.wait()?;
    Ok(Ran { output, error: error.join().expect("no thread panics"), status })
}

/// Gives a program arguments that it does not take while standard input stays open; it must use these words on standard
/// error. Returns what is not as it should be.
pub fn ask_usage(path: &str, arguments: &[&str], words: &str) -> io::Result<Option<String>> {
    let (mut input, mut sender) = io::pipe()?;
    sender.write_all(WAITING)?;
    let mut command = Command::new(path);
    command.args(arguments).stdin(input.try_clone()?).stdout(Stdio::piped()).stderr(Stdio::piped());
    let mut child = command.spawn()?;
    drop(command); // and with it a copy of the input
    let (output, error) = (collect(child.stdout.take()), collect(child.stderr.take()));
    let Some(status) = wait(&mut child)? else {
        return Ok(Some(format!("did not end within {} s while standard input stayed open", PATIENCE.as_secs())));
    };
    drop(sender);
    let mut left = Vec::new();
    input.read_to_end(&mut left)?;
    let [output, error] = [output, error].map(|thread| thread.join().expect("no thread panics"));
    let good = output.is_empty() && error.contains(words) && left == WAITING && status.code().is_some();
    let found = || {
        format!(
            "({status}): standard output {output:?} (expected none), standard error {error:?} (expected to speak of \
             `{words}`), {} bytes of standard input read (expected 0)",
            WAITING.len() - left.len()
        )
    };
    Ok((!good).then(found))
}

/// The end of a program; None if it had to be ended.
fn wait(child: &mut Child) -> io::Result<Option<ExitStatus>> {
    let started = Instant::now();
    loop {
        match child.try_wait()? {
            Some(status) => return Ok(Some(status)),
            None if started.elapsed() > PATIENCE => {
                child.kill()?;
                child.wait()?;
                return Ok(None);
            }
            None => thread::sleep(Duration::from_millis(5)),
        }
    }
}

/// The start of what a program writes, all of which is read, so that it never waits for a reader.
fn collect(pipe: Option<impl Read + Send + 'static>) -> JoinHandle<String> {
    thread::spawn(move || {
        let mut bytes = Vec::new();
        // What came before a failing read is shown all the same.
        let _ = pipe.map(|mut pipe| pipe.read_to_end(&mut bytes));
        String::from_utf8_lossy(&bytes[..bytes.len().min(2000)]).into_owned()
    })
}
