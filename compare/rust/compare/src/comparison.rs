//! One input at a time: the port is asked, and its number, its count and every byte of the lent buffer are held against
//! what is expected. Differences are counted, and the first of them printed.

use beside::crate_side;
use beside::leaf::{Leaf, Question, RECORD, SHEET_BUFFER, Value};
use beside::port;
use beside::sheet::sheet_of;

use crate::expect::{self, Expected, Written};
use crate::rng::Rng;
use crate::tally::Tally;
use crate::words;

/// How many differences are printed; all are counted.
const SHOWN: u64 = 20;
/// How many wrong bytes of a buffer are named in one of them.
const WRONG_BYTES: usize = 8;
/// Bytes behind the longest buffer that is lent, to see that none of them is written.
const GUARD: usize = 256;
/// The longest buffer lent: a little more than a projection needs.
pub const MOST_LENT: usize = SHEET_BUFFER + RECORD;
/// The seed of what the lent buffer holds before a call.
const FILLING: u64 = 0x0b0f;

pub const QUESTIONS: [Question; 2] = [Question::Inclusive, Question::Strict];

/// What the port answered: its number and its count of bytes.
type Found = (u32, u64);

/// What is printed of an input: in words, its bytes, what the crate answers, if it can be asked, and the result's type,
/// if it is a value.
struct Input {
    words: String,
    bytes: Vec<u8>,
    of_crate: Option<Written>,
    value_type: Option<u8>,
}

pub struct Comparison {
    pub tally: Tally,
    /// What the buffer holds before a call, and the buffer, with the bytes behind it.
    before: Vec<u8>,
    buffer: Vec<u8>,
}

impl Comparison {
    pub fn new() -> Comparison {
        let mut rng = Rng::new(FILLING);
        let before: Vec<u8> = (0..MOST_LENT + GUARD).map(|_| rng.byte()).collect();
        Comparison { tally: Tally::new(), buffer: before.clone(), before }
    }

    /// Both projections of a leaf, its literals in records 1, 2, ..
    pub fn leaf(&mut self, leaf: &Leaf) {
        self.leaf_on(leaf, &sheet_of(leaf), SHEET_BUFFER);
    }

    /// Both projections of a leaf on a sheet that was laid out for it.
    pub fn leaf_on(&mut self, leaf: &Leaf, sheet: &[u8], lent: usize) {
        let read = expect::read_sheet(sheet);
        assert_eq!(read.as_ref(), Ok(leaf), "the reader reads what was laid out");
        self.projections(&read, sheet, lent);
    }

    /// Both projections of bytes of any kind.
    pub fn sheet(&mut self, sheet: &[u8], lent: usize) {
        self.projections(&expect::read_sheet(sheet), sheet, lent);
    }

    fn projections(&mut self, read: &Result<Leaf, u32>, sheet: &[u8], lent: usize) {
        let leaf = read.as_ref().ok();
        for question in QUESTIONS {
            let expected = expect::projection(question, read, lent);
            self.tally.projection(question, leaf, &expected);
            let found = port::project(question, sheet, &mut self.buffer[..lent]);
            self.judge(&expected, found, || Input {
                words: format!("{question:?}, buffer of {lent}, {}", leaf.map_or("no leaf".to_string(), words::leaf)),
                bytes: sheet.to_vec(),
                of_crate: leaf.map(|leaf| expect::projection_of_crate(question, leaf)),
                value_type: None,
            });
        }
    }

    /// The transform of one value, which comes as bytes of any kind.
    pub fn value(&mut self, column: u8, transform: u8, width: u32, record: &[u8], lent: usize) {
        let read = expect::read_value(column, transform, width, record);
        let value = read.as_ref().ok();
        let expected = expect::transformed(column, transform, width, &read, lent);
        self.tally.value(transform, column, &expected);
        let found = port::transform(column, transform, width, record, &mut self.buffer[..lent]);
        self.judge(&expected, found, || {
            let pair = words::pair(transform, width, column);
            let value_words = value.map_or("no value".to_string(), |value| words::value(column, value));
            Input {
                words: format!("{pair}, buffer of {lent}, {value_words}"),
                bytes: record.to_vec(),
                of_crate: value.map(|value| expect::transformed_of_crate(column, transform, width, value)),
                value_type: crate_side::result_column(column, transform, width).or(Some(column)),
            }
        });
    }

    /// The holds-test of a sheet and a value, bytes of any kind. The crate has none: this program's own is the judge.
    pub fn holds(&mut self, sheet: &[u8], record: &[u8]) {
        let read = expect::read_test(sheet, record);
        let test = read.as_ref().ok();
        let expected = expect::held(&read);
        self.tally.held(test.map(|test| &test.0), &expected);
        let found = (port::holds(sheet, record), 0);
        self.judge(&expected, found, || {
            let words =
                |(leaf, value): &(Leaf, Value)| format!("{}, {}", words::leaf(leaf), words::value(leaf.column, value));
            Input {
                words: format!("holds-test, {}", test.map_or("no leaf or no value".to_string(), words)),
                bytes: [sheet, record].concat(),
                of_crate: None,
                value_type: None,
            }
        });
    }

    /// Holds one answer against the expected one, reports a difference, and fills the buffer as it was.
    fn judge(&mut self, expected: &Expected, found: Found, input: impl FnOnce() -> Input) {
        if self.is_as_expected(expected, found) {
            let written = expected.answer.bytes.len();
            self.buffer[..written].copy_from_slice(&self.before[..written]);
            return;
        }
        self.tally.differences += 1;
        if self.tally.differences <= SHOWN {
            self.show(expected, found, input());
        }
        self.buffer.copy_from_slice(&self.before);
    }

    /// Number and count as expected, the result in the buffer, and every byte after it as before.
    fn is_as_expected(&self, expected: &Expected, found: Found) -> bool {
        let Written { number, bytes } = &expected.answer;
        found == (*number, bytes.len() as u64)
            && self.buffer[..bytes.len()] == *bytes
            && self.buffer[bytes.len()..] == self.before[bytes.len()..]
    }

    /// Prints a difference: the input, the answers, and which bytes of the buffer are not as they should be.
    fn show(&self, expected: &Expected, found: Found, input: Input) {
        let (number, count) = found;
        let written = usize::try_from(count).ok().and_then(|count| self.buffer.get(..count)).unwrap_or_default();
        let of_port = Written { number, bytes: written.to_vec() };
        let mut should_be = self.before.clone();
        should_be[..expected.answer.bytes.len()].copy_from_slice(&expected.answer.bytes);
        let wrong = self.buffer.iter().zip(&should_be).enumerate().filter(|(_, (is, should))| is != should);
        let wrong: Vec<usize> = wrong.map(|(at, _)| at).take(WRONG_BYTES).collect();
        let by = expected.rule.map_or("crate and document 01", |applied| applied.rule.name());
        let text = |answer: &Written| words::answer(answer, input.value_type);
        println!("difference {}: {}", self.tally.differences, input.words);
        println!("  bytes     {}", words::hex(&input.bytes));
        println!("  crate     {}", input.of_crate.as_ref().map_or("is not asked".to_string(), text));
        println!("  expected  {} (by: {by})", text(&expected.answer));
        println!("  port      {}, count {count}, first wrong bytes of the buffer: {wrong:?}", text(&of_port));
    }
}

#[cfg(test)]
mod tests {
    use super::*;

    /// A number, a count, a byte of the result, a later byte or one behind the buffer that is wrong is a difference.
    #[test]
    fn every_fault_shows() {
        let mut comparison = Comparison::new();
        let expected = Expected { answer: Written { number: 0, bytes: vec![1, 2, 3] }, rule: None };
        let written = |comparison: &mut Comparison| comparison.buffer[..3].copy_from_slice(&[1, 2, 3]);
        written(&mut comparison);
        assert!(comparison.is_as_expected(&expected, (0, 3)));
        assert!(!comparison.is_as_expected(&expected, (1, 3)));
        assert!(!comparison.is_as_expected(&expected, (0, 2)));
        for at in [0, 2, 3, MOST_LENT - 1, MOST_LENT, MOST_LENT + GUARD - 1] {
            comparison.buffer[at] ^= 1;
            assert!(!comparison.is_as_expected(&expected, (0, 3)), "byte {at} changed");
            comparison.buffer[at] ^= 1;
        }
        let refused = Expected { answer: Written { number: 3, bytes: Vec::new() }, rule: None };
        assert!(!comparison.is_as_expected(&refused, (3, 0)), "a refusal that wrote");
    }
}
