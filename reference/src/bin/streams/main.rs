//! streams: how posted, brn, trace and business_day read and write where the system moves few bytes at a time,
//! interrupts or fails.

mod checks;
mod journals;
mod program;
mod standin;

use std::path::{Path, PathBuf};
use std::process::exit;
use std::time::Instant;

use journals::Journals;
use program::{Kind, Place, Program, KINDS};
use standin::Fault;

const USAGE: &str = "\
streams --shim SHIM [--programs FOLDER]
    runs posted, brn, trace and business_day of the folder, with the shim (programs/shim.c, compiled) between them and
    the system: what they write must be the reference's bytes, however few bytes a read or write moves and however often
    it is interrupted; a failing read or write must be told on standard error and never be taken for the end; only
    descriptor 0 is read, only 1 and 2 are written; then the same with stand-ins that read or write wrongly in one way
    each, which must all be found
Exit status: 0 all as it should be, 1 if not, or if a wrong stand-in was not found, 2 a wrong use.";

/// Journals made from seeds for the programs; for the stand-ins none.
const SEEDS: usize = 8;

fn main() {
    standin::act_if_asked();
    let words: Vec<String> = std::env::args().skip(1).collect();
    let words: Vec<&str> = words.iter().map(String::as_str).collect();
    let (shim, folder) = match words[..] {
        ["--shim", shim] => (shim, None),
        ["--shim", shim, "--programs", folder] => (shim, Some(PathBuf::from(folder))),
        _ => stop(2, USAGE),
    };
    let started = Instant::now();
    let place = Place::new(shim.into()).unwrap_or_else(|error| stop(2, &error.to_string()));
    let result = folder.map_or(Ok(()), |folder| try_programs(&place, &Given::make(&place, SEEDS)?, &folder));
    let result = result.and_then(|()| try_stand_ins(&place, &Given::make(&place, 0)?));
    place.remove();
    match result {
        Ok(()) => println!("streams: all as it should be, {:.1} s", started.elapsed().as_secs_f64()),
        Err(told) => stop(1, &told),
    }
}

/// What the programs are given.
struct Given {
    journals: Journals,
    holidays: Journals,
}

impl Given {
    fn make(place: &Place, seeds: usize) -> Result<Given, String> {
        let journals = journals::make(place, seeds).map_err(|error| error.to_string())?;
        let holidays = journals::make_holidays(place).map_err(|error| error.to_string())?;
        Ok(Given { journals, holidays })
    }

    fn to(&self, kind: Kind) -> &Journals {
        if kind == Kind::BusinessDay {
            &self.holidays
        } else {
            &self.journals
        }
    }
}

fn try_programs(place: &Place, given: &Given, folder: &Path) -> Result<(), String> {
    for kind in KINDS {
        let program = Program { kind, path: folder.join(kind.name()), stand_in: None };
        let told = |told: String| format!("{}: {told}", program.path.display());
        let runs = checks::all(place, given.to(kind), &program).map_err(told)?;
        println!("{:<12} {runs} runs as they should be", kind.name());
    }
    Ok(())
}

/// A stand-in without a fault must pass, every other must not.
fn try_stand_ins(place: &Place, given: &Given) -> Result<(), String> {
    let path = std::env::current_exe().map_err(|error| error.to_string())?;
    let stand_in = |kind: Kind, fault: Fault| Program { kind, path: path.clone(), stand_in: Some(fault) };
    for kind in KINDS {
        let told = |told: String| format!("the stand-in for {}, which is right: {told}", kind.name());
        checks::all(place, given.to(kind), &stand_in(kind, Fault::None)).map_err(told)?;
        // Only brn warns.
        let faults = standin::FAULTS.iter().filter(|fault| fault.0 != Fault::WarnsOfGood || kind == Kind::Brn);
        for (fault, what) in faults.clone() {
            if checks::all(place, given.to(kind), &stand_in(kind, *fault)).is_ok() {
                return Err(format!("NOT FOUND: {} that {what}", kind.name()));
            }
        }
        println!("{:<12} {} wrong stand-ins found", kind.name(), faults.count());
    }
    Ok(())
}

fn stop(status: i32, told: &str) -> ! {
    eprintln!("{told}");
    exit(status)
}
