//! Leaves to project and values to transform, tried to the last one where there are few enough: before any random
//! input, and whatever the seed.

use std::ops::RangeInclusive;
use std::slice;

use beside::leaf::{CONTENT, Leaf, VALUE_BUFFER, Value, column, operator, transform};
use beside::sheet::value_record;

use crate::comparison::Comparison;
use crate::edges;
use crate::types::{self, SECONDS_PER_DAY, is_number, is_transformed, per_second};

/// Code points of the strings that are all tried: of each length, and two of one byte.
const ALPHABET: [char; 6] = ['a', 'b', 'é', '\u{301}', '€', '😀'];
/// The longest of those strings, in code points; with 4 bytes each, its bytes are this many times 4.
const MOST_CODE_POINTS: usize = 3;
/// Bytes of the Binaries that are all tried: some that are UTF-8 alone, some only beside others, and one that never is.
const BYTES: [u8; 6] = [0x00, b'a', 0x80, 0xa9, 0xc3, 0xff];
/// The longest of those Binaries, in bytes.
const MOST_BYTES: usize = 4;
/// Where no literal is transformed, one edge out of so many is tried.
const UNTRANSFORMED: usize = 25;
/// Small numbers, and small widths, that are all tried.
const SMALL_NUMBERS: RangeInclusive<i64> = -40..=40;
const SMALL_WIDTHS: RangeInclusive<u32> = 0..=12;
/// A period of the calendar, in days.
const FOUR_CENTURIES: i64 = 146_097;
/// Bytes at the edges of UTF-8's forms.
pub const UTF8_EDGES: [u8; 24] = [
    0x00, 0x61, 0x7f, 0x80, 0x8f, 0x90, 0x9f, 0xa0, 0xbf, 0xc0, 0xc1, 0xc2, 0xdf, 0xe0, 0xe1, 0xec, 0xed, 0xee, 0xef,
    0xf0, 0xf3, 0xf4, 0xf5, 0xff,
];

/// A part: what is said of it while it runs, and its inputs, each handed to the comparison.
pub type Part = (&'static str, fn(&mut Comparison));

/// The parts, in order; those of `every_sheet` follow.
pub const PARTS: [Part; 8] = [
    ("every operator, type, transform and edge", every_edge),
    ("every short string", every_short_string),
    ("every short Binary", every_short_binary),
    ("every small number", every_small_number),
    ("every small set", every_small_set),
    ("transforms of every edge", every_edge_transformed),
    ("every day of four centuries", every_day),
    ("every microsecond of a second before 1970", every_microsecond),
];

pub fn leaf(operator: u16, column: u8, transform: u8, width: u32, literals: &[Vec<u8>]) -> Leaf {
    Leaf { operator, column, transform, width, literals: literals.to_vec() }
}

/// The literals at a type's edges.
pub fn edge_contents(column: u8) -> Vec<Vec<u8>> {
    if is_number(column) {
        return edges::numbers(column).into_iter().map(|number| types::content(column, number)).collect();
    }
    let mut found = strings(2, &encoded(&edges::CODE_POINTS));
    found.extend(
        ["a", "é", "€", "😀", "\u{7ff}a"].iter().flat_map(|text| [CONTENT - 1, CONTENT].map(|n| filled(text, n))),
    );
    if column == column::BINARY {
        found.extend(UTF8_EDGES.iter().flat_map(|byte| [vec![*byte], vec![*byte; 2], vec![*byte; CONTENT]]));
    }
    found
}

/// As many copies of a text as `bytes` bytes hold.
fn filled(text: &str, bytes: usize) -> Vec<u8> {
    text.repeat(bytes / text.len()).into_bytes()
}

/// Every string of up to `most` letters of an alphabet.
fn strings(most: usize, alphabet: &[Vec<u8>]) -> Vec<Vec<u8>> {
    let mut found = vec![Vec::new()];
    let mut longest = found.clone();
    for _ in 0..most {
        let longer = |start: &Vec<u8>| alphabet.iter().map(|next| [&start[..], next].concat()).collect::<Vec<_>>();
        longest = longest.iter().flat_map(longer).collect();
        found.extend(longest.clone());
    }
    found
}

/// Code points as bytes.
fn encoded(alphabet: &[char]) -> Vec<Vec<u8>> {
    alphabet.iter().map(|code_point| code_point.to_string().into_bytes()).collect()
}

fn widths(transform: u8) -> &'static [u32] {
    if transform == transform::TRUNCATE { &edges::WIDTHS } else { &[0] }
}

/// Types and transforms, all of them.
fn pairs() -> impl Iterator<Item = (u8, u8)> {
    column::ALL.into_iter().flat_map(|column| transform::ALL.into_iter().map(move |transform| (column, transform)))
}

fn every_edge(comparison: &mut Comparison) {
    for (column, transform) in pairs() {
        let step = if is_transformed(column, transform) { 1 } else { UNTRANSFORMED };
        let contents: Vec<Vec<u8>> = edge_contents(column).into_iter().step_by(step).collect();
        for width in widths(transform) {
            every_operator(comparison, column, transform, *width, &contents);
        }
    }
}

/// Every operator with each of these literals alone; those without literal and the empty sets once.
fn every_operator(comparison: &mut Comparison, column: u8, transform: u8, width: u32, contents: &[Vec<u8>]) {
    for operator in operator::ALL {
        if !(operator::LESS..=operator::NOT_STARTS_WITH).contains(&operator) {
            comparison.leaf(&leaf(operator, column, transform, width, &[]));
        }
        let alone = if operator >= operator::LESS { contents } else { &[] };
        for content in alone {
            comparison.leaf(&leaf(operator, column, transform, width, slice::from_ref(content)));
        }
    }
}

fn every_short_string(comparison: &mut Comparison) {
    let texts = strings(MOST_CODE_POINTS, &encoded(&ALPHABET));
    let most_bytes = MOST_CODE_POINTS as u32 * char::MAX.len_utf8() as u32;
    for width in 0..=most_bytes + 1 {
        every_operator(comparison, column::STRING, transform::TRUNCATE, width, &texts);
        every_operator(comparison, column::BINARY, transform::TRUNCATE, width, &texts);
    }
}

/// Binaries are cut anywhere, inside of a code point too.
fn every_short_binary(comparison: &mut Comparison) {
    let binaries = strings(MOST_BYTES, &BYTES.map(|byte| vec![byte]));
    for width in 0..=MOST_BYTES as u32 + 1 {
        every_operator(comparison, column::BINARY, transform::TRUNCATE, width, &binaries);
        for content in &binaries {
            transformed(comparison, column::BINARY, transform::TRUNCATE, width, &Value::Present(content.clone()));
        }
    }
}

fn every_small_number(comparison: &mut Comparison) {
    for column in [column::INT, column::LONG] {
        let contents: Vec<Vec<u8>> = SMALL_NUMBERS.map(|number| types::content(column, number)).collect();
        for width in SMALL_WIDTHS {
            every_operator(comparison, column, transform::TRUNCATE, width, &contents);
        }
    }
}

/// Every subset of a few literals that meet at a turn: what they give coincides, or is lifted, or is refused.
fn every_small_set(comparison: &mut Comparison) {
    for column in column::TIMESTAMP..=column::TIMESTAMPTZ_NS {
        for transform in [transform::YEAR, transform::MONTH, transform::DAY, transform::HOUR] {
            every_subset(comparison, column, transform, 0, &set_moments(column));
        }
    }
    let dates: Vec<Vec<u8>> = [-366, -365, -32, -31, -1, 0, 31, 365, i64::from(i32::MAX)]
        .map(|day| types::content(column::DATE, day))
        .to_vec();
    for transform in [transform::IDENTITY, transform::YEAR, transform::MONTH, transform::DAY] {
        every_subset(comparison, column::DATE, transform, 0, &dates);
    }
    let numbers: Vec<Vec<u8>> =
        [-21, -20, -1, 0, 1, 9, 10, i64::from(i32::MIN)].map(|number| types::content(column::INT, number)).to_vec();
    let texts: Vec<Vec<u8>> = ["", "a", "ab", "é", "éa", "éb", "€", "b"].map(|text| text.as_bytes().to_vec()).to_vec();
    for width in SMALL_WIDTHS {
        every_subset(comparison, column::INT, transform::TRUNCATE, width, &numbers);
        every_subset(comparison, column::STRING, transform::TRUNCATE, width, &texts);
        every_subset(comparison, column::BINARY, transform::TRUNCATE, width, &texts);
    }
}

/// Moments of the three days before 1970, in and out of the seconds where the crate's Day is too high, and past the
/// last hour of 32 bits or the type's end.
fn set_moments(column: u8) -> Vec<Vec<u8>> {
    let second = per_second(column).unwrap_or(1);
    let day = second * SECONDS_PER_DAY;
    let moments = [0, -1, -2, -day, -day - 1, -day - 2, -day - second + 1, -day - second, -2 * day - 2, i64::MAX];
    moments.map(|moment| types::content(column, moment)).to_vec()
}

fn every_subset(comparison: &mut Comparison, column: u8, transform: u8, width: u32, contents: &[Vec<u8>]) {
    for chosen in 0..1_usize << contents.len() {
        let is_in = |at: &usize| chosen >> at & 1 == 1;
        let literals: Vec<Vec<u8>> = (0..contents.len()).filter(is_in).map(|at| contents[at].clone()).collect();
        comparison.leaf(&leaf(operator::IN, column, transform, width, &literals));
        comparison.leaf(&leaf(operator::NOT_IN, column, transform, width, &literals));
    }
}

pub fn transformed(comparison: &mut Comparison, column: u8, transform: u8, width: u32, value: &Value) {
    comparison.value(column, transform, width, &value_record(value), VALUE_BUFFER);
}

fn every_edge_transformed(comparison: &mut Comparison) {
    for (column, transform) in pairs() {
        let contents = edge_contents(column);
        for width in widths(transform) {
            transformed(comparison, column, transform, *width, &Value::Missing);
            for content in &contents {
                transformed(comparison, column, transform, *width, &Value::Present(content.clone()));
            }
        }
    }
}

/// The calendar repeats after four centuries: two before 1970, two after. Each day by itself, and by its first and last
/// moment.
fn every_day(comparison: &mut Comparison) {
    for day in -FOUR_CENTURIES / 2..=FOUR_CENTURIES / 2 {
        for transform in [transform::YEAR, transform::MONTH, transform::DAY] {
            let value = Value::Present(types::content(column::DATE, day));
            transformed(comparison, column::DATE, transform, 0, &value);
            for column in [column::TIMESTAMP, column::TIMESTAMP_NS] {
                let length = per_second(column).unwrap_or(1) * SECONDS_PER_DAY;
                for moment in [day * length, day * length + length - 1] {
                    let value = Value::Present(types::content(column, moment));
                    transformed(comparison, column, transform, 0, &value);
                }
            }
        }
    }
}

/// The second before the midnight at which the crate's Day first goes wrong, and a little on either side: of a value,
/// and in comparisons, so that the moments where port and crate part are known to the last one, L-1 and L+1 included.
fn every_microsecond(comparison: &mut Comparison) {
    const MARGIN: i64 = 10;
    let second = per_second(column::TIMESTAMP).unwrap_or(1);
    let midnight = -second * SECONDS_PER_DAY;
    for moment in midnight - second - MARGIN..midnight + MARGIN {
        let content = types::content(column::TIMESTAMP, moment);
        for operator in operator::LESS..=operator::GREATER_EQ {
            comparison.leaf(&leaf(operator, column::TIMESTAMP, transform::DAY, 0, slice::from_ref(&content)));
        }
        transformed(comparison, column::TIMESTAMP, transform::DAY, 0, &Value::Present(content));
    }
}
