//! What a call is lent; each side has one of its own.

/// A call writes to some of these and leaves the others.
#[derive(Clone)]
pub struct Lent {
    pub words: Vec<u64>,
    pub out: Vec<u8>,
    pub change: i64,
    pub counts: [u64; 4],
    pub place: u64,
    pub amounts: [u64; 3],
    pub written: u64,
    pub told: [u64; 2],
    /// A weekday or a date that the calendar found.
    pub day: u64,
}

impl Lent {
    /// Figures that no call returns, so that one left alone shows.
    pub fn new(words: &[u64], output: usize) -> Lent {
        let odd = 0xdead_beef_dead_beef;
        Lent {
            words: words.to_vec(),
            out: vec![b'#'; output],
            change: odd as i64,
            counts: [odd; 4],
            place: odd,
            amounts: [odd; 3],
            written: odd,
            told: [odd; 2],
            day: odd,
        }
    }

    pub fn same(&self, other: &Lent) -> Result<(), String> {
        let parts = [
            ("words", self.words == other.words),
            ("output", self.out == other.out),
            ("change", self.change == other.change),
            ("counts", self.counts == other.counts),
            ("place", self.place == other.place),
            ("amounts", self.amounts == other.amounts),
            ("written", self.written == other.written),
            ("told", self.told == other.told),
            ("day", self.day == other.day),
        ];
        match parts.iter().find(|part| !part.1) {
            Some((name, _)) => Err(format!("the two sides differ in {name}")),
            None => Ok(()),
        }
    }
}
