//! A ledger in words, lent to the library, beside the reference's ledger: each call is given to both and compared.

use reference::words::{self, BLANK, FIELDS, HEAD, WORDS};
use reference::{Cause, Ledger};

use crate::call::{Answer, Call};
use crate::lent::{pattern, same, Lent};
use crate::run::{run, Figures};
use crate::tally::Tally;

pub struct Both {
    words: Lent<u64>,
    /// None if the words are no sound ledger.
    ledger: Option<Ledger>,
    /// Calls made; what is lent looks different at each.
    turn: u64,
}

impl Both {
    /// The reference reads its ledger from the words.
    pub fn of(words: &[u64]) -> Both {
        Both { words: Lent::new(words, 0x5a5a_a5a5_0f0f_f0f0, 0), ledger: words::read(words), turn: 0 }
    }

    pub fn ledger(&self) -> Option<&Ledger> {
        self.ledger.as_ref()
    }

    pub fn words(&self) -> &[u64] {
        self.words.inside()
    }

    /// Makes a call with an output of this length; returns its number, or what differed.
    pub fn call(&mut self, tally: &mut Tally, call: &Call, length: usize) -> Result<u64, String> {
        self.turn += 1;
        let number = self.carry_out(call, length).map_err(|told| format!("{call}, output {length}: {told}"))?;
        tally.call(call, length, number, self.words.inside().len() == WORDS, self.ledger.is_some());
        if let (Call::OpenBill { account }, Some(ledger), 0 | 4) = (call, &self.ledger, number) {
            tally.lookup(ledger, *account);
        }
        Ok(number)
    }

    /// Makes a call with an output that is enough.
    pub fn plain(&mut self, tally: &mut Tally, call: &Call) -> Result<u64, String> {
        self.call(tally, call, call.output().unwrap_or(0))
    }

    fn carry_out(&mut self, call: &Call, length: usize) -> Result<u64, String> {
        let mut wanted_words = self.words.inside().to_vec();
        let pattern = pattern(self.turn, length);
        let (mut ledger, mut wanted_out) = (self.ledger.clone(), pattern.clone());
        let answer = match (wanted_words.len(), call.told()) {
            (WORDS, _) => call.answer(&mut ledger, &mut wanted_out),
            // A bad entry comes before the length of the ledger.
            (_, Some([0, _])) => Err(Cause::BadEntry),
            _ => Err(Cause::BadField),
        };
        let mut out = Lent::new(&pattern, self.turn as u8, self.turn as usize % 8);
        let mut figures = Figures::new(self.turn);
        let number = run(call, self.words.lend(), out.lend(), &mut figures)?;
        let wanted = answer.err().map_or(0, |cause| cause.number().into());
        if number != wanted {
            return Err(format!("answered {number}, expected {wanted}"));
        }
        same(&out, &wanted_out, "output", &|at| format!("byte {at}"))?;
        if let (Ok(Answer::Done(..)), Some(ledger)) = (answer, &ledger) {
            if call.is_fresh() {
                wanted_words[HEAD.len()..].as_chunks_mut().0.fill(BLANK);
            }
            words::put(ledger, &mut wanted_words);
        }
        same(&self.words, &wanted_words, "ledger", &word_name)?;
        if answer.is_ok() {
            self.ledger = ledger;
        }
        figures.compare(self.turn, call, answer)?;
        Ok(number)
    }
}

/// Where a word of a ledger stands.
pub fn word_name(at: usize) -> String {
    match at.checked_sub(HEAD.len()) {
        None => format!("word {at} ({})", HEAD[at]),
        Some(rest) => format!("word {at} (place {}, {})", rest / FIELDS.len(), FIELDS[rest % FIELDS.len()]),
    }
}
