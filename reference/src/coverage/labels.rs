//! The labels under which `coverage` counts, and what no journal reaches.

use super::borders;

/// Labels that stand alone; `expected` adds those of `borders` and those made of a call or kind and a number.
const EXPECTED: &[&str] = &[
    "fresh done",
    "fresh cause 2",
    "request done, new bill",
    "request done, known bill",
    "file done",
    "cancel done",
    "close done",
    "request cause 2",
    "request cause 3",
    "request cause 5",
    "request cause 6",
    "request cause 7",
    "request cause 8",
    "request cause 9",
    "request cause 12",
    "file cause 11",
    "file cause 12",
    "cancel cause 2",
    "cancel cause 4",
    "cancel cause 5",
    "cancel cause 12",
    "close cause 2",
    "close cause 10",
    "removal done",
    "removal cause 2",
    "removal cause 4",
    "RSP BR09, issued",
    "RSP BR09, cancelled",
    "SUP BR09, cancelled",
    "RSP BR01",
    "SUP BR11",
    "SUP BR12",
    "SUP BR13",
    "RSP BR05",
    "SUP BR05, sequence not 000",
    "SUP BR05, bill at 999",
    "other BR17",
    "other BR19",
    "RSP accepted, B",
    "RSP accepted, P",
    "SUP accepted, B",
    "SUP accepted, P",
    "file: empty",
    "file: 200 records",
    "file: 100 groups",
    "file: two alike",
    "file: three alike",
    "file: RSP and SUP of one bill",
    "BR17: no detail",
    "BR17: several details",
    "BR17: Record Count",
    "BR17: Company",
    "BR17: 1-28 differ",
    "BR17: 31-33 differ",
    "BR17: account",
    "BR17: Bill Key",
    "11: length",
    "11: byte",
    "11: byte 321",
    "11: type",
    "11: first record",
    "state: 128 bills",
    "state: sequence 990 to 998",
    "state: sequence 999",
    "state: Tracking IDs used up",
    "state: Confirmation Numbers used up",
    "state: count below sequence",
    "2: rate code",
    "2: account or key",
    "2: product",
    "2: Billing Date",
    "2: From Date",
    "2: consumption",
    "2: Scheduled Date",
    "bad: empty journal",
    "bad: refused fresh",
    "bad: another tag first",
    "bad: first entry otherwise",
    "bad: stray byte",
    "bad: cut short in the length",
    "bad: cut short in the body",
    "bad: cut short in a removal",
    "bad: tag",
    "bad: tag 6",
    "bad: length",
    "bad: length of a removal",
    "bad: file over 64,200",
    "bad: tag 0 later",
    "end: not stopped",
    "table: O",
    "table: I",
    "table: C",
    "table: zero charge posted",
    "trace: group ACF",
    "trace: stopped 13",
    "trace: change negative",
    "trace: accepted and rejected",
    "trace: 100 groups or more",
    "trace: closed",
    "trace: account with a comma",
    "trace: group without detail",
];

/// The causes that lines of a trace can show, 0 for a call carried out. A refused fresh is a bad entry, without a line.
const TRACED: [(&str, &[u8]); 6] = [
    ("fresh", &[0]),
    ("request", &[0, 2, 3, 5, 6, 7, 8, 9, 12]),
    ("file", &[0, 11, 12]),
    ("cancel", &[0, 2, 4, 5, 12]),
    ("close", &[0, 2, 10]),
    ("removal", &[0, 2, 4]),
];

/// Never in a journal, and why.
pub const UNREACHABLE: &[(&str, &str)] = &[
    ("request, file, cancel cause 1", "a journal lends 64,200 bytes to each call"),
    ("file cause 11 by length over 64,200", "such an entry is bad (13) before it is a call"),
    (
        "cause 2 by the ledger or a next number over 999,999,999",
        "the ledger is sound after fresh; the field has nine digits",
    ),
    ("an entry after the 1,000,000,000th", "3 GB at least: see bench --limit"),
];

/// Every label that a run should reach.
pub fn expected() -> Vec<String> {
    let mut labels: Vec<String> = EXPECTED.iter().chain(borders::LABELS).map(|label| label.to_string()).collect();
    for kind in ["RSP", "SUP"] {
        for code in [6, 7, 8, 10, 14, 16, 17, 20, 21, 22, 23, 24, 25, 26] {
            labels.push(format!("{kind} BR{code:02}"));
        }
        for blank in ["spaces", "zeros", "mixed"] {
            labels.push(format!("REJ under {kind}, From Date {blank}"));
        }
    }
    for (call, causes) in TRACED {
        labels.extend(causes.iter().map(|cause| format!("trace: {call} {cause:02}")));
    }
    for code in [1, 5, 6, 7, 8, 9, 10, 11, 12, 13, 14, 16, 17, 19, 20, 21, 22, 23, 24, 25, 26] {
        labels.push(format!("trace: group BR{code:02}"));
    }
    labels
}
