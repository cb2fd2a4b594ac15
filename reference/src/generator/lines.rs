//! What program `business_day` is given: its two arguments and the lines of holidays, good and bad, and what they show.

use super::days::{some_holidays, some_number, some_start, NO_DATES};
use crate::calendar::{program, HOLIDAY_LIMIT};
use crate::fields::digits;
use crate::prng::Prng;

pub struct Asked {
    pub date: Vec<u8>,
    pub number: Vec<u8>,
    /// Standard input.
    pub holidays: Vec<u8>,
}

const NO_DATE_ARGUMENTS: [&str; 12] = [
    "",
    "2017111",
    "020171113",
    "2017111x",
    "+2017111",
    " 2017111",
    "2017-1-1",
    "20171113 ",
    "201711130",
    "2017111\n",
    "-",
    "１２３４５６７８",
];
const NO_NUMBER_ARGUMENTS: [&str; 10] = ["", "10", "03", "00", "x", "-1", "+3", " 3", "3 ", "３"];

/// The arguments and the input of a seed.
pub fn make(seed: u64) -> Asked {
    let mut rng = Prng::new(seed ^ 0x11e5_0000_0000_0000);
    let start = some_start(&mut rng);
    let number = some_number(&mut rng).to_string();
    let mut lines: Vec<Vec<u8>> = some_holidays(&mut rng, start).iter().map(|day| line(*day)).collect();
    if rng.chance(25) {
        spoil(&mut rng, &mut lines, start);
    }
    let mut holidays = lines.concat();
    if rng.chance(30) && holidays.ends_with(b"\n") {
        holidays.pop();
    }
    let date = match rng.below(20) {
        0 => rng.pick(&NO_DATE_ARGUMENTS).as_bytes().to_vec(),
        1 => format!("{:08}", rng.pick(&NO_DATES)).into_bytes(),
        _ => format!("{start:08}").into_bytes(),
    };
    let spoiled = rng.chance(4).then(|| rng.pick(&NO_NUMBER_ARGUMENTS).to_string());
    Asked { date, number: spoiled.unwrap_or(number).into_bytes(), holidays }
}

fn line(day: u64) -> Vec<u8> {
    format!("{day:08}\n").into_bytes()
}

/// Makes one line another, or adds one.
fn spoil(rng: &mut Prng, lines: &mut Vec<Vec<u8>>, start: u64) {
    let place = rng.below(lines.len() + 1);
    let old = lines.get(place).cloned().unwrap_or(line(start));
    let text = &old[..old.len() - 1];
    let at = rng.below(text.len());
    let mut other = match rng.below(9) {
        0 => vec![],
        1 => text[1..].to_vec(),
        2 => [b"0", text].concat(),
        3 => [text, b"\r"].concat(),
        4 => [text, b" "].concat(),
        5 => text.repeat(*rng.pick(&[2, 100, 20_000])),
        6 => [&text[..at], &[0], &text[at + 1..]].concat(),
        7 => [&text[..at], &[rng.below(256) as u8], &text[at + 1..]].concat(),
        _ => return lines.extend((0..rng.range(1, 2000)).map(|_| line(start))),
    };
    other.push(b'\n');
    if rng.chance(50) && place < lines.len() {
        lines[place] = other;
    } else {
        lines.insert(place, other);
    }
}

impl Asked {
    /// What the program must write.
    pub fn expected(&self) -> String {
        program(&self.date, &self.number, &self.holidays)
    }

    /// What this shows, read off its bytes and the answer: some of `LABELS`.
    pub fn labels(&self) -> Vec<String> {
        let expected = self.expected();
        let answer = if expected.starts_with("stopped,") { expected.trim() } else { "a date" };
        let mut labels = vec![answer.to_string()];
        match answer {
            "stopped,2" => labels.extend(self.bad_argument().map(|argument| format!("stopped,2: {argument}"))),
            _ => labels.push(format!("{answer}, {} further on", self.number.escape_ascii())),
        }
        if answer != "stopped,2" {
            labels.extend(self.input_shows().into_iter().map(|shown| format!("{answer}: {shown}")));
        }
        labels
    }

    /// The one that is bad by its form.
    fn bad_argument(&self) -> Option<&'static str> {
        let bad = |field: &[u8], width: usize| field.len() != width || digits(field).is_none();
        match (bad(&self.date, 8), bad(&self.number, 1)) {
            (true, false) => Some("DATE is not eight digits"),
            (false, true) => Some("NUMBER is not a digit"),
            (false, false) => Some("DATE is no date"),
            _ => None,
        }
    }

    fn input_shows(&self) -> Vec<&'static str> {
        let input = &self.holidays;
        let lines: Vec<&[u8]> = input.strip_suffix(b"\n").unwrap_or(input).split(|byte| *byte == b'\n').collect();
        let any = |test: fn(&&[u8]) -> bool| !input.is_empty() && lines.iter().any(test);
        let shown = [
            ("no input", input.is_empty()),
            ("no byte 10 at the end", !input.is_empty() && !input.ends_with(b"\n")),
            ("64 lines", lines.len() == HOLIDAY_LIMIT),
            ("65 lines", lines.len() == HOLIDAY_LIMIT + 1),
            ("more lines", lines.len() > HOLIDAY_LIMIT + 1),
            ("an empty line", any(|line| line.is_empty())),
            ("a line of another length", any(|line| line.len() != 8)),
            ("a byte that is no digit", any(|line| line.len() == 8 && digits(line).is_none())),
            ("a line of 100 bytes or more", any(|line| line.len() >= 100)),
        ];
        shown.into_iter().filter(|shown| shown.1).map(|shown| shown.0).collect()
    }
}

/// What must have occurred once there were some thousand seeds.
pub fn labels() -> Vec<String> {
    let mut labels: Vec<String> = ["a date", "stopped,2", "stopped,14", "stopped,15"].map(String::from).to_vec();
    let arguments = ["DATE is not eight digits", "NUMBER is not a digit", "DATE is no date"];
    labels.extend(arguments.map(|argument| format!("stopped,2: {argument}")));
    labels
        .extend((0..=9).flat_map(|days| ["a date", "stopped,14"].map(|answer| format!("{answer}, {days} further on"))));
    labels.extend((1..=9).map(|days| format!("stopped,15, {days} further on")));
    let both = ["no byte 10 at the end", "64 lines"];
    labels
        .extend(both.into_iter().flat_map(|shown| ["a date", "stopped,14"].map(|answer| format!("{answer}: {shown}"))));
    labels.extend(["a date: no input", "stopped,15: no input"].map(String::from));
    let bad = ["65 lines", "more lines", "an empty line", "a line of another length", "a byte that is no digit"];
    labels.extend(bad.into_iter().chain(["a line of 100 bytes or more"]).map(|shown| format!("stopped,14: {shown}")));
    labels
}
