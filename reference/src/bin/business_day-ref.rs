//! business_day-ref: holidays on standard input, the business day so many further on on standard output.

use std::io::{self, Read, Write};
use std::os::unix::ffi::OsStrExt;
use std::process::exit;

use reference::calendar::program;

const USAGE: &str = "\
business_day-ref DATE NUMBER < HOLIDAYS
    reads holidays from standard input, a date a line, and writes the business day NUMBER (0 to 9) further on from DATE
    to standard output, or `stopped,` and the number of the cause";

fn main() -> io::Result<()> {
    let arguments: Vec<_> = std::env::args_os().skip(1).collect();
    let [date, number] = &arguments[..] else {
        eprintln!("{USAGE}");
        exit(2);
    };
    let mut holidays = Vec::new();
    io::stdin().lock().read_to_end(&mut holidays)?;
    io::stdout().lock().write_all(program(date.as_bytes(), number.as_bytes(), &holidays).as_bytes())
}
