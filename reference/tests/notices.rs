//! The bytes of BIL, ACF, REJ and CXL, and that output past the bytes written is untouched.

mod common;
use common::*;
use reference::groups::{self, Sent};
use reference::Ledger;

/// A record as a list of (position, text); spaces elsewhere.
fn record(parts: &[(usize, &str)]) -> Vec<u8> {
    let mut record = vec![b' '; 320];
    for (position, text) in parts {
        record[position - 1..position - 1 + text.len()].copy_from_slice(text.as_bytes());
    }
    record.push(13);
    record
}

fn same(got: &[u8], expected: &[Vec<u8>]) {
    assert_eq!(got.len() % 321, 0);
    assert_eq!(String::from_utf8_lossy(got), String::from_utf8_lossy(&expected.concat()));
}

#[test]
fn bil_first_and_later() {
    let mut ledger = fresh();
    let first = request(&mut ledger, BILL_READY).unwrap();
    let zeros = "0".repeat(120);
    let start = |tracking: &str, kind: &str| format!("34ZZC40123456780019{tracking}{kind}BIL20171113");
    same(
        &first,
        &[
            record(&[(1, &start("000000001", "01")), (42, "0000000012017111601")]),
            record(&[
                (1, &start("000000001", "02")),
                (42, "00072017111300100000000850000000000000"),
                (80, "20171013"),
                (88, &zeros),
                (208, "00100000000000000000000000"),
            ]),
        ],
    );
    request(&mut ledger, PREPAY).unwrap();
    let group = rsp(&ledger, 1, 4250);
    file(&mut ledger, &[group]);
    let later = request(&mut ledger, &with_consumption(PREPAY, 90)).unwrap();
    same(
        &later,
        &[
            record(&[(1, &start("000000003", "01")), (42, "0000000042017111601")]),
            record(&[
                (1, &start("000000003", "02")),
                (42, "00082017111300200000000900000000000000"),
                (80, "20171013"),
                (88, &zeros),
                (208, "00200000000850000000004250"),
                (234, &zeros[..26]),
            ]),
        ],
    );
}

#[test]
fn bil_after_sup_counts_requests() {
    let mut ledger = two_issued();
    let group = sup(&ledger, 0, 4250);
    file(&mut ledger, &[group]);
    let mut body = with_consumption(BILL_READY, 90);
    body[48..].copy_from_slice(b"20171120");
    let bil = request(&mut ledger, &body).unwrap();
    let detail = &bil[321..];
    assert_eq!((&detail[53..56], &detail[207..210]), (&b"003"[..], &b"002"[..]));
    assert_eq!(&detail[220..233], b"0000000004250");
}

#[test]
fn cxl() {
    let mut ledger = two_bills();
    let mut out = vec![7; 700];
    let done = ledger.cancel(ACCOUNT, b"0008", Some(&mut out)).unwrap();
    assert_eq!((done.change, done.written), (0, 642));
    assert!(out[642..].iter().all(|byte| *byte == 7));
    same(
        &out[..642],
        &[
            record(&[(1, "34ZZC4012345678001900000000301CXL201711130000000030000000001")]),
            record(&[(1, "34ZZC4012345678001900000000302CXL201711130008")]),
        ],
    );
    assert_eq!(ledger.bills()[1].tracking, 2);
}

/// One file whose out buffer is longer than needed.
fn notices(ledger: &mut Ledger, groups: &[Sent]) -> Vec<u8> {
    let mut out = vec![7; 64_200];
    let done = ledger.file(&groups::file(groups), Some(&mut out)).unwrap();
    assert!(out[done.written..].iter().all(|byte| *byte == 7));
    out.truncate(done.written);
    out
}

#[test]
fn acf() {
    let mut ledger = two_bills();
    let littered = |group| header(header(header(group, 34, "any text"), 42, "any text, any text"), 74, "any text");
    let sent = [littered(rsp(&ledger, 0, 1)), littered(rsp(&ledger, 1, 1))];
    let sent = [header(sent[0].clone(), 61, "any text here"), sent[1].clone()].map(|group| header(group, 59, "01"));
    same(
        &notices(&mut ledger, &sent),
        &[
            record(&[(1, "34ZZC4012345678001900000000101ACF201711130000000032017111600")]),
            record(&[(1, "34ZZC4012345678001900000000201ACF2017111300000000420171116000000000000017")]),
        ],
    );
    ledger.close(b"20171117").unwrap();
    let sent = [both(sup(&ledger, 1, 1), 20, "any text."), sup(&ledger, 0, 1)];
    same(
        &notices(&mut ledger, &sent),
        &[
            record(&[(1, "34ZZC4012345678001900000000301ACF2017111700000000500000000000000000000017")]),
            record(&[(1, "34ZZC4012345678001900000000401ACF201711170000000060000000000")]),
        ],
    );
    assert_eq!(ledger.bills().iter().map(|bill| bill.tracking).collect::<Vec<_>>(), [1, 2]);
}

/// What a REJ must be, made from the bytes sent.
fn rejected(sent: &Sent, today: &str, confirmation: &str, code: &str, from_dates: &[Option<&str>]) -> Vec<u8> {
    let put = |record: &mut Vec<u8>, position: usize, text: &str| {
        record[position - 1..position - 1 + text.len()].copy_from_slice(text.as_bytes());
    };
    let mut header = sent.header.to_vec();
    put(&mut header, 31, "REJ");
    put(&mut header, 34, today);
    put(&mut header, 42, confirmation);
    for (detail, from_date) in sent.details.iter().zip(from_dates) {
        let mut detail = detail.to_vec();
        put(&mut detail, 31, "REJ");
        put(&mut detail, 34, today);
        if let Some(from_date) = from_date {
            put(&mut detail, 80, from_date);
        }
        put(&mut detail, 260, code);
        put(&mut detail, 264, &" ".repeat(57));
        header.extend(detail);
    }
    header
}

#[test]
fn rej() {
    let mut ledger = two_bills();
    let litter = |group| detail(header(detail(group, 260, "any text"), 61, "text from 61 on"), 234, "text from 234 on");
    let one = litter(detail(rsp(&ledger, 0, 1), 57, "          "));
    let mut several = litter(rsp(&ledger, 1, 1));
    several.details = vec![several.details[0]; 3];
    let none = Sent { details: vec![], ..litter(sup(&ledger, 1, 1)) };
    let got = notices(&mut ledger, &[one.clone(), several.clone(), none.clone()]);
    assert_eq!(got.len(), 321 * (2 + 4 + 1));
    let expected = [
        rejected(&one, "20171113", "000000003", "BR08", &[None]),
        rejected(&several, "20171113", "000000004", "BR17", &[None; 3]),
        rejected(&none, "20171113", "000000005", "BR17", &[]),
    ];
    same(&got, &expected);
}

#[test]
fn rej_from_date() {
    let ledger = two_bills();
    let (spaces, zeros, given) = ("        ", "00000000", Some("00010101"));
    for (from_date, under_sup) in
        [(spaces, given), (zeros, given), ("0000000 ", None), ("       0", None), ("20171013", None)]
    {
        for is_sup in [true, false] {
            // A SUP is rejected here since the bill is open, an RSP by its sequence.
            let sent = if is_sup { sup(&ledger, 0, 1) } else { detail(rsp(&ledger, 0, 1), 54, "009") };
            let sent = detail(sent, 80, from_date);
            let code = if is_sup { "BR11" } else { "BR05" };
            let expected = rejected(&sent, "20171113", "000000003", code, &[under_sup.filter(|_| is_sup)]);
            same(&notices(&mut ledger.clone(), &[sent]), &[expected]);
        }
    }
    // It goes by the header's code, for every detail under it.
    let mut sent = detail(sup(&ledger, 0, 1), 80, zeros);
    sent.details.push(detail(rsp(&ledger, 0, 1), 80, spaces).details[0]);
    let expected = rejected(&sent, "20171113", "000000003", "BR17", &[given, given]);
    same(&notices(&mut ledger.clone(), &[sent.clone()]), &[expected]);
    let turned = Sent { header: rsp(&ledger, 0, 1).header, details: sent.details };
    let expected = rejected(&turned, "20171113", "000000003", "BR17", &[None, None]);
    same(&notices(&mut ledger.clone(), &[turned]), &[expected]);
}
