//! The programs as they are run: the example's journal and table, and the notices.

use std::io::Write;
use std::process::{Command, Stdio};

use reference::expect::expect;
use reference::generator;
use reference::show::show;
use reference::shrink::{shrink, split};

const TABLE: &str = "account,key,code,kind,seq,ccf,charge,applied,owed,state\n\
    123456780019,0007,ZZC40,B,001,0000000085,0000000004250,0000000000000,0000000004250,O\n\
    total,0000000000004250\n";

fn run(program: &str, arguments: &[&str], input: &[u8]) -> (Vec<u8>, bool) {
    let mut command = Command::new(program);
    command.args(arguments).current_dir(env!("CARGO_MANIFEST_DIR")).env("TMPDIR", env!("CARGO_TARGET_TMPDIR"));
    let mut child = command.stdin(Stdio::piped()).stdout(Stdio::piped()).stderr(Stdio::null()).spawn().unwrap();
    let mut stdin = child.stdin.take().unwrap();
    let input = input.to_vec();
    let writer = std::thread::spawn(move || stdin.write_all(&input));
    let output = child.wait_with_output().unwrap();
    let _ = writer.join().unwrap();
    (output.stdout, output.status.success())
}

#[test]
fn the_example() {
    let (journal, good) = run(env!("CARGO_BIN_EXE_journal"), &["examples/example.txt"], b"");
    assert!(good);
    assert_eq!(journal, std::fs::read(concat!(env!("CARGO_MANIFEST_DIR"), "/examples/example.journal")).unwrap());
    let (table, good) = run(env!("CARGO_BIN_EXE_posted-ref"), &[], &journal);
    assert!(good && table == TABLE.as_bytes());
    let (notices, good) = run(env!("CARGO_BIN_EXE_brn-ref"), &[], &journal);
    assert!(good && notices.len() == 3 * 321 && &notices[642 + 30..642 + 33] == b"ACF");
    let (trace, good) = run(env!("CARGO_BIN_EXE_trace-ref"), &[], &journal);
    assert!(good && trace.ends_with(b"001,000,000\ngroup,000000002,123456780019,0007,RSP,ACF\n"));
}

#[test]
fn seeds_through_the_programs() {
    for seed in 0..30 {
        let journal = generator::make(seed);
        let expected = expect(&journal).unwrap();
        assert!(run(env!("CARGO_BIN_EXE_posted-ref"), &[], &journal).0 == expected.table);
        assert!(run(env!("CARGO_BIN_EXE_brn-ref"), &[], &journal).0 == expected.notices);
        assert!(run(env!("CARGO_BIN_EXE_trace-ref"), &[], &journal).0 == expected.trace);
        assert!(run(env!("CARGO_BIN_EXE_compare"), &["--make", &seed.to_string()], b"").0 == journal);
    }
}

#[test]
fn compare_tells_a_difference() {
    let (posted, brn) = (env!("CARGO_BIN_EXE_posted-ref"), env!("CARGO_BIN_EXE_brn-ref"));
    let trace = env!("CARGO_BIN_EXE_trace-ref");
    let compare = |posted: &str, brn: &str, trace: &str| {
        let words = ["--posted", posted, "--brn", brn, "--trace", trace, "--seeds", "0", "20"];
        run(env!("CARGO_BIN_EXE_compare"), &words, b"")
    };
    assert!(compare(posted, brn, trace).1);
    for (posted, brn, trace) in [(trace, brn, trace), (posted, posted, trace), (posted, brn, posted)] {
        let (told, good) = compare(posted, brn, trace);
        assert!(!good && told.starts_with(b"DIFFERENCE at seed"));
    }
    // Writes its argument to standard output.
    let (told, good) = compare(posted, "echo", trace);
    assert!(!good && told.starts_with(b"USAGE: echo --help"));
}

/// A program that hands the holidays to business_day-ref by a shell's line, which may change them or the arguments.
fn business_day_by(name: &str, line: &str) -> String {
    let path = format!("{}/{name}", env!("CARGO_TARGET_TMPDIR"));
    let right = env!("CARGO_BIN_EXE_business_day-ref");
    let script = format!("#!/bin/sh\n[ $# = 2 ] || exec {right} \"$@\"\n{}\n", line.replace("REF", right));
    std::fs::write(&path, script).unwrap();
    std::fs::set_permissions(&path, std::os::unix::fs::PermissionsExt::from_mode(0o755)).unwrap();
    path
}

#[test]
fn compare_days_tells_a_difference() {
    let compare = |program: &str| {
        run(env!("CARGO_BIN_EXE_compare_days"), &["--business_day", program, "--seeds", "1", "900"], b"")
    };
    assert!(
        run(
            env!("CARGO_BIN_EXE_compare_days"),
            &["--business_day", env!("CARGO_BIN_EXE_business_day-ref"), "--seeds", "1", "40"],
            b""
        )
        .1
    );
    for (name, line) in [
        ("drops-empty-lines", "grep -a . | REF \"$@\""),
        ("takes-65-lines", "head -n 64 | REF \"$@\""),
        ("drops-byte-13", "tr -d '\\r' | REF \"$@\""),
        ("wants-byte-10-at-the-end", "{ cat; echo; } | REF \"$@\""),
        ("takes-a-number-of-two-digits", "REF \"$1\" \"${2#0}\""),
        ("reads-nothing", "REF \"$@\" </dev/null"),
    ] {
        let (told, good) = compare(&business_day_by(name, line));
        assert!(
            !good && String::from_utf8_lossy(&told).contains("DIFFERENCE at seed"),
            "{name}: {}",
            told.escape_ascii()
        );
    }
    let (told, good) = compare("echo");
    assert!(!good && told.starts_with(b"USAGE: echo"));
}

#[test]
fn shrinking_keeps_what_matters() {
    // The difference looked for: a cancelled bill in the table.
    let journal = (0..).map(generator::make).find(|journal| has_cancelled(journal)).unwrap();
    let small = shrink(&journal, has_cancelled);
    assert_eq!(small.len(), 29 + 59 + 19, "a fresh, a request and a cancel are left");
    assert!(split(&journal).concat() == journal && show(&small).lines().count() == 3 + 4);
}

fn has_cancelled(journal: &[u8]) -> bool {
    expect(journal).unwrap().table.windows(3).any(|bytes| bytes == b",C\n")
}

#[test]
fn journal_lines() {
    let make = |text: &str| run(env!("CARGO_BIN_EXE_journal"), &["-"], text.as_bytes());
    let bill = "fresh 20171113 1 1\nrequest ZZC40 123456780019 7 P 20171113 20171013 85 20171116 # Prepay\n\n";
    let (journal, good) =
        make(&format!("{bill}begin\nrsp 123456780019 7 100 40 60 5\nend\nclose 20171120\nsup 123456780019 7 90\n"));
    assert!(good);
    let removed = format!("{bill}close 20171117\nremoval 123456780019 20170901\nsup 123456780019 7 90\n");
    let (late, good) = make(&removed);
    let trace = run(env!("CARGO_BIN_EXE_trace-ref"), &[], &late).0;
    assert!(good && trace.ends_with(b"group,000000002,123456780019,0007,SUP,BR13\n"));
    let table = String::from_utf8(run(env!("CARGO_BIN_EXE_posted-ref"), &[], &journal).0).unwrap();
    assert!(table.contains("0007,ZZC40,P,002,0000000085,0000000000090,0000000000000,0000000000090,I\n"));
    for wrong in [
        "rsp 1 1 1",
        "close",
        "removal 1",
        "request ZZC40",
        "begin",
        "end",
        "close 201711201",
        "rsp 123456780019 7 x",
        "file /none",
    ] {
        assert!(!make(&format!("{bill}{wrong}\n")).1, "{wrong}");
    }
}
