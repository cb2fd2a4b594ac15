//! A ledger in words: the layout by literal numbers, there and back for ledgers of journals, and words that are none.

mod common;
use common::*;
use reference::journal::follow;
use reference::words::{of, place, put, read, BLANK, WORDS};
use reference::{generator, Ledger};

/// Two bills with these charges.
fn posted(bill_ready: u64, prepay: u64) -> Ledger {
    let mut ledger = two_bills();
    let groups = [rsp(&ledger, 0, bill_ready), rsp(&ledger, 1, prepay)];
    file(&mut ledger, &groups);
    ledger
}

#[test]
fn layout() {
    let words = of(&posted(4250, 4251));
    assert_eq!((words.len(), WORDS), (2564, 2564));
    assert_eq!(words[..4], [20171113, 3, 5, 2]);
    #[rustfmt::skip]
    let bills = [
        [123456780019, 7, 90, 90, 52, 48, 66, 1, 1, 0, 1, 85, 20171113, 20171013, 20171116, 1, 4250, 0, 0, 0],
        [123456780019, 8, 90, 90, 52, 48, 80, 1, 1, 0, 2, 85, 20171113, 20171013, 20171116, 2, 4251, 2125, 2126, 0],
    ];
    assert_eq!(words[4..24], bills[0]);
    assert_eq!(words[24..44], bills[1]);
    assert!(words[44..].chunks(20).all(|place| place == BLANK));
    assert_eq!(BLANK, [0, 0, 0, 0, 0, 0, 66, 0, 0, 0, 0, 0, 0, 0, 0, 0, 0, 0, 0, 0]);
}

#[test]
fn removal_dates() {
    let mut ledger = posted(4250, 4251);
    ledger.removal(ACCOUNT, b"20171102").unwrap();
    let words = of(&ledger);
    assert_eq!((words[23], words[43], words[63]), (20171102, 20171102, 0));
    assert_eq!(read(&words), Some(ledger));
    for (word, date) in [(0, None), (19000101, Some(19000101)), (20000229, Some(20000229)), (29991231, Some(29991231))]
    {
        let ledger = read(&with(&[(place(1) + 19, word)])).expect("a sound ledger");
        assert_eq!(ledger.bills()[1].removal_date.map(|date| date.number()), date);
    }
}

#[test]
fn there_and_back() {
    for seed in 1..=150 {
        let same = |ledger: &Ledger| assert_eq!(read(&of(ledger)).as_ref(), Some(ledger), "seed {seed}");
        let replayed = follow(&generator::make(seed)[..], |ledger, entry| {
            let _ = reference::journal::carry_out(ledger, entry, None);
            same(ledger);
            Ok(())
        });
        replayed.unwrap().ledger.iter().for_each(same);
    }
}

/// The words of two posted bills with some changed.
fn with(changes: &[(usize, u64)]) -> Vec<u64> {
    let mut words = of(&posted(4250, 4250));
    changes.iter().for_each(|(at, value)| words[*at] = *value);
    words
}

#[test]
fn no_ledger() {
    let (first, second, past) = (place(0), place(1), place(2));
    for changes in [
        vec![(0, 20170229)],
        vec![(1, 0)],
        vec![(2, 1_000_000_001)],
        vec![(3, 3)],
        vec![(3, 129)],
        vec![(first, 1_000_000_000_000)],
        vec![(second + 1, 7)],
        vec![(first + 2, 97)],
        vec![(first + 5, 304)],
        vec![(first + 6, 80)],
        vec![(first + 7, 0)],
        vec![(first + 8, 2)],
        vec![(first + 9, 1)],
        vec![(first + 10, (1 << 32) + 1)],
        vec![(first + 11, 10_000_000_000)],
        vec![(first + 14, 20171131)],
        vec![(first + 15, 0)],
        vec![(first + 17, 1)],
        vec![(second + 18, 2126)],
        vec![(second + 17, u64::MAX), (second + 18, 4251)],
        vec![(first + 19, 1)],
        vec![(first + 19, 20171131)],
        vec![(second + 19, (1 << 32) + 20171113)],
        vec![(second + 19, u64::MAX)],
        vec![(past + 6, 0)],
        vec![(past + 9, 2)],
        vec![(past + 16, 1)],
    ] {
        assert_eq!(read(&with(&changes)), None, "{changes:?}");
    }
    assert_eq!(read(&with(&[])[1..]), None);
    assert_eq!(read(&with(&[])[..2436]), None);
}

#[test]
fn past_the_count() {
    let plain = with(&[]);
    let copy: Vec<(usize, u64)> = (0..20).map(|field| (place(127) + field, plain[place(0) + field])).collect();
    for changes in [
        copy,
        vec![
            (place(2), u64::MAX),
            (place(2) + 2, 255),
            (place(2) + 15, 2),
            (place(2) + 18, 9),
            (place(2) + 19, 20171131),
        ],
    ] {
        let mut words = with(&changes);
        let ledger = read(&words).expect("a sound ledger");
        assert_eq!(Some(&ledger), read(&plain).as_ref());
        let before = words.clone();
        put(&ledger, &mut words);
        assert_eq!(words, before);
    }
}
