//! Lists of calls: those of the generator's journals, with refused calls and lookups strewn in.

use clearing::Request;
use reference::fields::digits;
use reference::generator::{self, days};
use reference::journal::{Entries, Entry, Next};
use reference::prng::Prng;
use reference::words::WORDS;

use crate::aim::{next_number, some_identity, some_owner, DATES};
use crate::both::Both;
use crate::call::Call;
use crate::spoil::{spoil, too_wide};
use crate::tally::Tally;

/// Carries out the list of a seed, and a fresh over what it left.
pub fn drive(seed: u64, tally: &mut Tally) -> Result<(), String> {
    let mut rng = Prng::new(seed);
    let mut both = Both::of(&any_words(&mut rng));
    let mut calls = calls_of(&generator::make(seed), &mut rng);
    let (tracking, confirmation) = (next_number(&mut rng), next_number(&mut rng));
    calls.push(Call::Fresh { today: *rng.pick(&DATES), tracking, confirmation });
    let mut asking = Prng::new(seed ^ 0x100c_0000_0000_0000);
    for (at, call) in calls.iter().enumerate() {
        let told = |told: String| format!("seed {seed}, call {at} of its list: {told}");
        step(&mut both, tally, &mut rng, call).map_err(told)?;
        look_up(&mut both, tally, &mut asking).map_err(told)?;
    }
    Ok(())
}

/// Fresh reads no ledger: any words do.
pub fn any_words(rng: &mut Prng) -> Vec<u64> {
    match rng.below(3) {
        0 => vec![0; WORDS],
        1 => vec![u64::MAX; WORDS],
        _ => (0..WORDS).map(|_| rng.draw()).collect(),
    }
}

/// One call of the list, now and then after the same call with too short an output, or another that is refused.
fn step(both: &mut Both, tally: &mut Tally, rng: &mut Prng, call: &Call) -> Result<(), String> {
    let enough = call.output().unwrap_or(0);
    if enough > 0 && rng.chance(15) {
        let short = *rng.pick(&[0, enough - 1, enough / 2]);
        both.call(tally, call, short)?;
    }
    if rng.chance(15) {
        both.plain(tally, &aside(both, rng, call))?;
    }
    both.call(tally, call, enough + *rng.pick(&[0, 0, 1, 7, 321, 1000]))?;
    Ok(())
}

/// After some calls the bill due first is asked for, of an account that most often has several.
fn look_up(both: &mut Both, tally: &mut Tally, rng: &mut Prng) -> Result<(), String> {
    if let Some(ledger) = both.ledger().filter(|_| rng.chance(20)) {
        let account = some_owner(rng, ledger);
        both.plain(tally, &Call::OpenBill { account })?;
    }
    Ok(())
}

/// A call that leaves the ledger as it is: a lookup, or a call made bad.
fn aside(both: &Both, rng: &mut Prng, call: &Call) -> Call {
    let (account, key) = both.ledger().map_or((7, 7), |ledger| some_identity(rng, ledger));
    let mut aside = match rng.below(6) {
        0 | 1 => return Call::OpenBill { account },
        2 | 3 => return Call::Amounts { account, key },
        4 => Call::Fresh { today: 20171113, tracking: 1, confirmation: 1 },
        _ => call.clone(),
    };
    spoil(rng, &mut aside);
    aside
}

/// The calls of a journal's entries up to the first bad one.
fn calls_of(journal: &[u8], rng: &mut Prng) -> Vec<Call> {
    let mut entries = Entries::new(journal);
    let mut calls = Vec::new();
    while let Ok(Next::Entry(entry)) = entries.read_next() {
        let call = call_of(entry, rng);
        calls.extend(by_calendar(&call, rng));
        calls.push(call);
    }
    calls
}

/// Before some requests the same by calendar; if it is refused, the request itself follows, and the list goes its way.
fn by_calendar(call: &Call, rng: &mut Prng) -> Option<Call> {
    let Call::Request(request) = call else { return None };
    let (number, holidays) = (days::some_number(rng), days::some_holidays(rng, request.scheduled));
    rng.chance(25).then(|| Call::Calendar { request: request.clone(), number, holidays })
}

fn call_of(entry: Entry, rng: &mut Prng) -> Call {
    // A field that is not digits becomes a number that is too wide.
    let mut number = |field: &[u8]| digits(field).unwrap_or_else(|| too_wide(rng, field.len() as u32, 7));
    match entry {
        Entry::Fresh(body) => {
            Call::Fresh { today: number(&body[..8]), tracking: number(&body[8..17]), confirmation: number(&body[17..]) }
        }
        Entry::Request(body) => Call::Request(Request {
            code: *body.first_chunk().expect("five bytes"),
            account: number(&body[5..17]),
            key: number(&body[17..21]),
            product: body[21],
            billing: number(&body[22..30]),
            from: number(&body[30..38]),
            consumption: number(&body[38..48]),
            scheduled: number(&body[48..]),
        }),
        Entry::File(file) => Call::File(file.to_vec()),
        Entry::Cancel(body) => Call::Cancel { account: number(&body[..12]), key: number(&body[12..]) },
        Entry::Close(body) => Call::Close { today: number(body) },
        Entry::Removal(body) => Call::Removal { account: number(&body[..12]), date: number(&body[12..]) },
    }
}
