//! The dispatcher's summary: a text with the tallies of radios in, a text with
//! the radios ordered out, the weakest first.

use crate::radios::RADIOS;
use crate::refusal::{require, Refusal};
use crate::tally::iterations_of;
use crate::text::{refused, take_line, words, MOST_BYTES};
use std::cmp::Ordering;

/// The line of names of the input.
pub const LIST_NAMES: &[u8] = b"radio blocks criterion limit refusals iterations";
/// The line of names of the output.
pub const SUMMARY_NAMES: &str = "radio blocks criterion refusals iterations";

/// One line of the input, with numbers as wide as the text may hold them.
#[derive(Clone, Copy, Debug, PartialEq, Eq)]
pub struct Row {
    pub radio: u64,
    pub blocks: u64,
    pub criterion: u64,
    pub limit: u64,
    pub refusals: u64,
    pub iterations: u64,
}

/// The summary program as a function from its input to its output.
pub fn summary(input: &[u8]) -> Vec<u8> {
    match rows(input) {
        Ok(rows) => print(rows).into_bytes(),
        Err(refusal) => refused(refusal),
    }
}

/// The rows of a text: 14 for its length and its names, then line by line.
fn rows(input: &[u8]) -> Result<Vec<Row>, Refusal> {
    require(input.len() <= MOST_BYTES, Refusal::Text)?;
    let (names, mut rest) = take_line(input)?;
    require(names == LIST_NAMES, Refusal::Text)?;
    let mut rows: Vec<Row> = Vec::new();
    while !rest.is_empty() {
        let (line, after) = take_line(rest)?;
        let row = Row::from_list(values(line)?);
        require(row.radio < RADIOS as u64, Refusal::Radio)?;
        let rising = rows.last().is_none_or(|before| before.radio < row.radio);
        require(rising, Refusal::Text)?;
        require(row.adds_up(), Refusal::Tally)?;
        rows.push(row);
        rest = after;
    }
    Ok(rows)
}

/// Six words of one to nine digits.
fn values(line: &[u8]) -> Result<[u64; 6], Refusal> {
    let values: Vec<u64> = words(line)?.map(value).collect::<Result<_, _>>()?;
    values.try_into().map_err(|_| Refusal::Text)
}

fn value(word: &[u8]) -> Result<u64, Refusal> {
    let digits = word.iter().all(u8::is_ascii_digit);
    require(digits && (1..=9).contains(&word.len()), Refusal::Text)?;
    let digit = |value, byte: &u8| 10 * value + u64::from(byte - b'0');
    Ok(word.iter().fold(0, digit))
}

impl Row {
    pub fn from_list(list: [u64; 6]) -> Self {
        let [radio, blocks, criterion, limit, refusals, iterations] = list;
        Row {
            radio,
            blocks,
            criterion,
            limit,
            refusals,
            iterations,
        }
    }

    pub fn endings(&self) -> u64 {
        self.criterion + self.limit
    }

    /// Whether counting can have led to these numbers: a full tally, which no
    /// call counts in any more, is one of these.
    fn adds_up(&self) -> bool {
        let endings = self.endings();
        self.blocks <= 1_000_000
            && self.blocks == endings + self.refusals
            && iterations_of(endings).contains(&self.iterations)
    }

    /// Which of two rows with blocks comes first: the one of the smaller share
    /// ended by the criterion, then of more iterations to a block, then of the
    /// smaller radio number.
    fn before(&self, other: &Row) -> Ordering {
        // Fractions are compared with both sides multiplied by both blocks.
        let share = |one: &Row, by: &Row| one.criterion * by.blocks;
        let iterations = |one: &Row, by: &Row| one.iterations * by.blocks;
        share(self, other)
            .cmp(&share(other, self))
            .then(iterations(other, self).cmp(&iterations(self, other)))
            .then(self.radio.cmp(&other.radio))
    }

    /// The line of a row with blocks.
    fn line(&self) -> String {
        let share = tenths(100 * self.criterion, self.blocks);
        let mean = match self.endings() {
            0 => "-".to_string(),
            endings => tenths(self.iterations, endings),
        };
        let (radio, blocks, refusals) = (self.radio, self.blocks, self.refusals);
        format!("{radio} {blocks} {share}% {refusals} {mean}\n")
    }
}

/// A fraction with one decimal, rounded to the nearest, halves up.
fn tenths(part: u64, whole: u64) -> String {
    let (down, rest) = (10 * part / whole, 10 * part % whole);
    let tenths = down + u64::from(2 * rest >= whole);
    format!("{}.{}", tenths / 10, tenths % 10)
}

/// The output text of accepted rows.
fn print(mut rows: Vec<Row>) -> String {
    rows.retain(|row| row.blocks > 0);
    rows.sort_by(Row::before);
    let lines: String = rows.iter().map(Row::line).collect();
    format!("{SUMMARY_NAMES}\n{lines}")
}
