//! What a program must do, run by run. An error tells what it did otherwise.

use std::process::Command;

use crate::journals::{Journal, Journals};
use crate::program::{run, Input, Kind, Outcome, Place, Program};

const EIO: usize = 5;
const ENOSPC: usize = 28;
const EPIPE: usize = 32;

/// The runs of one program.
struct Runs<'a> {
    place: &'a Place,
    program: &'a Program,
    count: usize,
}

/// Every check; returns how many runs there were.
pub fn all(place: &Place, journals: &Journals, program: &Program) -> Result<usize, String> {
    let mut runs = Runs { place, program, count: 0 };
    runs.shim_is_there(journals)?;
    runs.plain(journals)?;
    runs.few_bytes(journals)?;
    runs.interrupted(journals)?;
    runs.failing_reads(journals)?;
    runs.failing_writes(journals)?;
    runs.without_shim(journals)?;
    Ok(runs.count)
}

impl Runs<'_> {
    /// A program that is not linked to the C library's read and write would pass most checks unseen.
    fn shim_is_there(&mut self, journals: &Journals) -> Result<(), String> {
        let command = self.program.with_shim(self.place, &[("HERE", 1)]);
        let outcome = self.run(command, Input::File(&journals.long.path))?;
        if outcome.status.code() != Some(95) {
            return Err(format!("the shim has no effect (is it linked statically?): {}", outcome.status));
        }
        Ok(())
    }

    /// Nothing special; but the shim sees which descriptors are read and written.
    fn plain(&mut self, journals: &Journals) -> Result<(), String> {
        for journal in journals.all() {
            self.exact(journal, &[])?;
        }
        Ok(())
    }

    /// Reads and writes that move few bytes.
    fn few_bytes(&mut self, journals: &Journals) -> Result<(), String> {
        for journal in journals.short() {
            for most in [1, 2, 3, 7, 100] {
                self.exact(journal, &[("READ_MOST", most)])?;
            }
            for most in [1, 3, 100, 320] {
                self.exact(journal, &[("WRITE_MOST", most)])?;
            }
        }
        self.exact(&journals.long, &[("READ_MOST", 1000), ("WRITE_MOST", 999)])?;
        self.exact(&journals.long, &[("READ_MOST", 65_535), ("WRITE_MOST", 65_535)])
    }

    /// Reads and writes that are interrupted before they move bytes.
    fn interrupted(&mut self, journals: &Journals) -> Result<(), String> {
        for journal in journals.short() {
            for times in [1, 3] {
                self.exact(journal, &[("READ_INTERRUPTS", times)])?;
                self.exact(journal, &[("WRITE_INTERRUPTS", times)])?;
            }
            let all = [("READ_INTERRUPTS", 1), ("WRITE_INTERRUPTS", 2), ("READ_MOST", 50), ("WRITE_MOST", 60)];
            self.exact(journal, &all)?;
        }
        self.exact(&journals.long, &[("READ_INTERRUPTS", 1), ("WRITE_INTERRUPTS", 1)])?;
        self.exact(&journals.long, &[("READ_INTERRUPTS", 1), ("WRITE_INTERRUPTS", 1), ("READ_MOST", 5000)])
    }

    /// A read that fails: at the start, between entries, within one, and instead of the end.
    fn failing_reads(&mut self, journals: &Journals) -> Result<(), String> {
        for journal in &journals.good {
            let ends = &journal.ends;
            let mut places = vec![0, 1, 2, 3, journal.bytes.len() / 2];
            places.extend(ends.iter().take(4).flat_map(|end| [end - 1, *end, end + 1]));
            places.extend([journal.bytes.len() - 1, journal.bytes.len()]);
            places.retain(|place| *place <= journal.bytes.len());
            for place in places {
                self.failing_read(journal, &[("READ_AFTER", place), ("READ_ERROR", EIO)])?;
                self.failing_read(journal, &[("READ_AFTER", place), ("READ_ERROR", EIO), ("READ_TIMES", 1)])?;
            }
            self.failing_read(journal, &[("READ_AFTER", ends[0]), ("READ_MOST", 1), ("READ_INTERRUPTS", 1)])?;
        }
        let mut places = journals.places.iter().copied().chain([journals.long.bytes.len()]);
        places.try_for_each(|place| self.failing_read(&journals.long, &[("READ_AFTER", place)]))
    }

    /// A write that fails: at the start, within the output, at its last byte.
    fn failing_writes(&mut self, journals: &Journals) -> Result<(), String> {
        for journal in journals.all() {
            let length = journal.expected(self.program.kind).0.len();
            let mut places = vec![0, 1, length / 2, length.saturating_sub(1)];
            places.retain(|place| *place < length);
            for (place, error) in places.into_iter().zip([ENOSPC, EPIPE, EIO, ENOSPC]) {
                self.failing_write(journal, &[("WRITE_AFTER", place), ("WRITE_ERROR", error)])?;
                self.failing_write(journal, &[("WRITE_AFTER", place), ("WRITE_TIMES", 1), ("WRITE_MOST", 300)])?;
            }
            if length > 0 {
                self.failing_write(journal, &[("WRITE_AFTER", 0), ("WRITE_ERROR", EPIPE), ("WRITE_INTERRUPTS", 1)])?;
            }
        }
        Ok(())
    }

    /// What the system itself does: pipes, a folder to read, a full disk, closed and other descriptors.
    fn without_shim(&mut self, journals: &Journals) -> Result<(), String> {
        for journal in journals.short() {
            for size in [3, 400] {
                let outcome = self.run(self.program.command(), Input::Pipe(&journal.bytes, size))?;
                self.is_exact(journal, &outcome).map_err(|told| context(journal, "through a pipe", &told))?;
            }
        }
        let outcome = self.run(self.program.command(), Input::Pipe(&journals.long.bytes, 1 << 20))?;
        self.is_exact(&journals.long, &outcome).map_err(|told| context(&journals.long, "through a pipe", &told))?;
        let (one, other) = (&journals.good[1], &journals.good[2]);
        let outcome = self.run(self.program.command(), Input::File(&self.place.folder))?;
        self.tells_failed_read(one, &outcome).map_err(|told| format!("a folder as standard input: {told}"))?;
        // For a program in Rust, as the stand-ins are, a closed descriptor 0 is an empty file.
        if self.program.stand_in.is_none() {
            let outcome = self.run(self.shell("exec \"$0\" \"$@\" <&-"), Input::File(&one.path))?;
            self.tells_failed_read(one, &outcome).map_err(|told| format!("standard input closed: {told}"))?;
        }
        let outcome = self.run(self.shell("exec \"$0\" \"$@\" >/dev/full"), Input::File(&one.path))?;
        self.tells_failed_write(one, &outcome).map_err(|told| format!("a full disk: {told}"))?;
        let mut shell = self.shell("exec \"$0\" \"$@\" 3<\"$OTHER\" 4<\"$OTHER\" 5<\"$OTHER\" 6<\"$OTHER\"");
        shell.env("OTHER", &other.path);
        let outcome = self.run(shell, Input::File(&one.path))?;
        self.is_exact(one, &outcome).map_err(|told| context(one, "another journal on descriptors 3 to 6", &told))
    }

    /// The program started by a shell that changes its descriptors.
    fn shell(&self, script: &str) -> Command {
        let program = self.program.command();
        let mut shell = Command::new("sh");
        shell.args(["-c", script]).arg(program.get_program()).args(program.get_args());
        shell.envs(program.get_envs().filter_map(|(name, value)| Some((name, value?))));
        shell
    }

    fn run(&mut self, command: Command, input: Input) -> Result<Outcome, String> {
        self.count += 1;
        run(command, input)
    }

    fn with_shim(&mut self, journal: &Journal, settings: &[(&str, usize)]) -> Result<Outcome, String> {
        let command = self.program.with_shim(self.place, settings);
        self.run(command, Input::File(&journal.path))
    }

    /// The reference's bytes, whatever is done to reads and writes.
    fn exact(&mut self, journal: &Journal, settings: &[(&str, usize)]) -> Result<(), String> {
        let outcome = self.with_shim(journal, settings);
        outcome.and_then(|outcome| self.is_exact(journal, &outcome)).map_err(|told| context(journal, settings, &told))
    }

    fn failing_read(&mut self, journal: &Journal, settings: &[(&str, usize)]) -> Result<(), String> {
        let outcome = self.with_shim(journal, settings);
        let result = outcome.and_then(|outcome| self.tells_failed_read(journal, &outcome));
        result.map_err(|told| context(journal, settings, &told))
    }

    fn failing_write(&mut self, journal: &Journal, settings: &[(&str, usize)]) -> Result<(), String> {
        let outcome = self.with_shim(journal, settings);
        let result = outcome.and_then(|outcome| self.tells_failed_write(journal, &outcome));
        result.map_err(|told| context(journal, settings, &told))
    }

    fn is_exact(&self, journal: &Journal, outcome: &Outcome) -> Result<(), String> {
        let (output, error) = journal.expected(self.program.kind);
        if outcome.error != *error {
            return Err(format!("standard error {:?}, expected {error:?}", start(&outcome.error)));
        }
        if outcome.output != *output {
            let same = outcome.output.iter().zip(output).take_while(|(got, wanted)| got == wanted).count();
            let lengths = (outcome.output.len(), output.len());
            return Err(format!("standard output of {} bytes, {} expected, differs at {same}", lengths.0, lengths.1));
        }
        Ok(())
    }

    /// Told on standard error; on standard output nothing but what the entries before it gave, and no end.
    fn tells_failed_read(&self, journal: &Journal, outcome: &Outcome) -> Result<(), String> {
        let (output, _) = journal.expected(self.program.kind);
        let has = |line: &str| outcome.output.windows(line.len()).any(|bytes| bytes == line.as_bytes());
        if outcome.error.is_empty() {
            return Err("a failed read is not told on standard error".into());
        }
        if outcome.error.contains("stopped,13") {
            return Err("a failed read is told as a bad entry".into());
        }
        if !output.starts_with(&outcome.output) {
            return Err("more on standard output than what came before the failed read".into());
        }
        if self.program.kind == Kind::Posted && (has("\ntotal,") || has("stopped,13")) {
            return Err("a table, as if the journal had ended at the failed read".into());
        }
        if self.program.kind == Kind::BusinessDay && !outcome.output.is_empty() {
            return Err("an answer, as if the holidays had ended at the failed read".into());
        }
        Ok(())
    }

    /// Told on standard error, where brn may also say `stopped,13`; standard output has the start of what it should.
    fn tells_failed_write(&self, journal: &Journal, outcome: &Outcome) -> Result<(), String> {
        let (output, _) = journal.expected(self.program.kind);
        if outcome.error.replace("stopped,13\n", "").is_empty() {
            return Err("a failed write is not told on standard error".into());
        }
        if !output.starts_with(&outcome.output) {
            return Err("standard output goes on after a failed write".into());
        }
        Ok(())
    }
}

impl Journals {
    fn short(&self) -> impl Iterator<Item = &Journal> {
        self.good.iter().chain(&self.stopped)
    }

    fn all(&self) -> impl Iterator<Item = &Journal> {
        self.short().chain([&self.long])
    }
}

fn context(journal: &Journal, what: impl std::fmt::Debug, told: &str) -> String {
    format!("journal `{}`, {what:?}: {told}", journal.name)
}

fn start(text: &str) -> String {
    text.chars().take(80).collect()
}
