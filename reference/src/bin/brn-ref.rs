//! brn-ref: a journal on standard input, the notices of every call carried out on standard output.

use std::io::{self, BufWriter, Write};
use std::process::exit;

use reference::journal;

const USAGE: &str = "\
brn-ref < JOURNAL
    reads a journal from standard input and writes the notices of its calls to standard output, and `stopped,13` to
    standard error where a bad entry stopped it; takes no argument";

fn main() -> io::Result<()> {
    if std::env::args_os().len() > 1 {
        eprintln!("{USAGE}");
        exit(2);
    }
    let mut notices = BufWriter::with_capacity(1 << 16, io::stdout().lock());
    let replayed = journal::replay_notices(io::stdin().lock(), &mut notices)?;
    notices.flush()?;
    if replayed.stopped {
        eprintln!("stopped,13");
    }
    Ok(())
}
