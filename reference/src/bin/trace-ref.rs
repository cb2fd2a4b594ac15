//! trace-ref: a journal on standard input, what became of each of its entries on standard output.

use std::io::{self, BufWriter, Write};
use std::process::exit;

use reference::trace::trace;

const USAGE: &str = "\
trace-ref < JOURNAL
    reads a journal from standard input and writes what became of each entry, and of each group of a file, to standard
    output; takes no argument";

fn main() -> io::Result<()> {
    if std::env::args_os().len() > 1 {
        eprintln!("{USAGE}");
        exit(2);
    }
    let mut lines = BufWriter::with_capacity(1 << 16, io::stdout().lock());
    trace(io::stdin().lock(), &mut lines)?;
    lines.flush()
}
