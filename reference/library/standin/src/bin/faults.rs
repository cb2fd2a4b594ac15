//! faults [WORD]: puts each fault of `faults/` (or those whose name has the word) into a copy of the reference and
//! the stand-in, links drive to it and runs it. Drive must find every one, and nothing in the copy as it stands.

use std::path::{Path, PathBuf};
use std::process::{exit, Command, Output};
use std::{env, fs, io};

const FAULTS: [&str; 8] = [
    include_str!("../../faults/arguments.txt"),
    include_str!("../../faults/calendar.txt"),
    include_str!("../../faults/causes.txt"),
    include_str!("../../faults/entry.txt"),
    include_str!("../../faults/lookups.txt"),
    include_str!("../../faults/removals.txt"),
    include_str!("../../faults/soundness.txt"),
    include_str!("../../faults/writing.txt"),
];
/// As many as the gate's first; every fault is found by then.
const SEEDS: [&str; 3] = ["--seeds", "1", "200"];

/// A text of a file that stands there once, and what takes its place.
struct Fault {
    name: &'static str,
    file: &'static str,
    old: String,
    new: String,
}

fn main() {
    let word = env::args().nth(1).unwrap_or_default();
    let reference = Path::new(env!("CARGO_MANIFEST_DIR")).join("../..");
    let folder = env::temp_dir().join(format!("clearing-faults-{}", std::process::id()));
    let missed = try_all(&reference, &folder, &word).unwrap_or_else(|error| stop(&folder, &error.to_string()));
    if missed > 0 {
        stop(&folder, &format!("{missed} faults not found"));
    }
    let _ = fs::remove_dir_all(&folder);
}

/// Tries the faults one by one; returns how many were not found.
fn try_all(reference: &Path, folder: &Path, word: &str) -> io::Result<usize> {
    let copy = folder.join("reference");
    copy_tree(reference, &copy)?;
    copy_tree(&reference.join("../bindings"), &folder.join("bindings"))?;
    let plain = try_copy(reference, folder)?;
    if !plain.status.success() {
        return Err(io::Error::other(format!("without a fault: {}", String::from_utf8_lossy(&plain.stderr))));
    }
    let (mut tried, mut missed) = (0, 0);
    for fault in faults().iter().filter(|fault| fault.name.contains(word)) {
        let path = copy.join(fault.file);
        let text = fs::read_to_string(&path)?;
        if text.matches(&fault.old).count() != 1 {
            return Err(io::Error::other(format!("{}: its text does not stand once in {}", fault.name, fault.file)));
        }
        fs::write(&path, text.replace(&fault.old, &fault.new))?;
        let (found, told) = match try_copy(reference, folder) {
            Ok(output) => judge(&output),
            Err(error) => (false, error.to_string()),
        };
        fs::write(&path, text)?;
        println!("{} {}\n    {told}", if found { "found    " } else { "NOT FOUND" }, fault.name);
        tried += 1;
        missed += usize::from(!found);
    }
    println!("{tried} faults tried, {missed} not found");
    Ok(missed)
}

/// Found is a difference that drive tells; a crash is not.
fn judge(output: &Output) -> (bool, String) {
    let told = String::from_utf8_lossy(&output.stderr).trim().to_string();
    let found = output.status.code() == Some(1) && told.starts_with("DIFFERENCE");
    (found, if found { told } else { format!("{}: {told}", output.status) })
}

/// Builds the copy's stand-in and the real drive over it, and runs drive.
fn try_copy(reference: &Path, folder: &Path) -> io::Result<Output> {
    let library = folder.join("standin/release");
    build(&folder.join("reference/library"), &["-p", "standin", "--lib"], &folder.join("standin"), &library)?;
    build(&reference.join("library"), &["--bin", "drive"], &folder.join("drive"), &library)?;
    Command::new(folder.join("drive/release/drive")).args(SEEDS).output()
}

fn build(package: &Path, what: &[&str], target: &Path, library: &Path) -> io::Result<()> {
    // Drive is compiled anew for each fault, so without optimisation.
    let quick = ["--config", "profile.release.package.library.opt-level=0"];
    let mut cargo = Command::new("cargo");
    cargo.args(["build", "--quiet", "--release", "--offline"]).args(quick).args(what);
    cargo.current_dir(package).env("CARGO_TARGET_DIR", target).env("CLEARING_LIB_DIR", library);
    cargo.env("RUSTFLAGS", "-Awarnings").env("CARGO_BUILD_JOBS", "1");
    match cargo.status()? {
        status if status.success() => Ok(()),
        status => Err(io::Error::other(format!("cargo build in {}: {status}", package.display()))),
    }
}

/// A fault is a name, a file below reference/, the text taken out (-) and the text put in (+), then an empty line.
fn faults() -> Vec<Fault> {
    let block = |block: &'static str| {
        let mut lines = block.trim().lines().filter(|line| !line.starts_with('#'));
        let (name, file) = (lines.next()?, lines.next()?);
        let lines: Vec<&str> = lines.collect();
        let text = |mark: &str| lines.iter().filter_map(|line| line.strip_prefix(mark)).collect::<Vec<_>>().join("\n");
        Some(Fault { name, file, old: text("-"), new: text("+") })
    };
    FAULTS.iter().flat_map(|file| file.split("\n\n")).filter_map(block).collect()
}

/// Copies the sources, without what cargo built.
fn copy_tree(from: &Path, to: &Path) -> io::Result<()> {
    fs::create_dir_all(to)?;
    for entry in fs::read_dir(from)? {
        let entry = entry?;
        let (path, copy): (PathBuf, PathBuf) = (entry.path(), to.join(entry.file_name()));
        if entry.file_name() == "target" {
            continue;
        }
        if path.is_dir() {
            copy_tree(&path, &copy)?;
        } else {
            fs::copy(&path, &copy)?;
        }
    }
    Ok(())
}

fn stop(folder: &Path, told: &str) -> ! {
    let _ = fs::remove_dir_all(folder);
    eprintln!("{told}");
    exit(1)
}
