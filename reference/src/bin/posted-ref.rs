//! posted-ref: a journal on standard input, the posted table on standard output.

use std::io::{self, Write};
use std::process::exit;

use reference::{journal, table};

const USAGE: &str = "\
posted-ref < JOURNAL
    reads a journal from standard input and writes its posted table to standard output; takes no argument";

fn main() -> io::Result<()> {
    if std::env::args_os().len() > 1 {
        eprintln!("{USAGE}");
        exit(2);
    }
    let replayed = journal::replay(io::stdin().lock())?;
    io::stdout().lock().write_all(&table::table(&replayed))
}
