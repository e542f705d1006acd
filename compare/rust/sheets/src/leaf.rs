//! What both sides are asked and what they answer, in the numbers of document 01. Contents (of literals and values)
//! are kept as the bytes that stand in a record: numbers little-endian, strings and binaries as they are.

use std::cmp::Ordering;
use std::ops::Range;

/// Bytes of one record.
pub const RECORD: usize = 64;
/// Where a literal's content starts, after the next index and the length.
pub const CONTENT_AT: usize = 4;
/// Bytes of a record that hold content.
pub const CONTENT: usize = RECORD - CONTENT_AT;
/// The length that marks a value missing.
pub const MISSING: u16 = 65535;
/// The bytes of a head that are zero: before the width and after it.
pub const RESERVED: [Range<usize>; 2] = [6..8, 12..RECORD];
/// Literals that a leaf's sheet may hold.
pub const LITERALS: usize = 64;
/// Literals that an answer sheet may hold: lifting doubles a set.
pub const ANSWER_LITERALS: usize = 2 * LITERALS;
/// Bytes that the result buffer of a projection must have: a head and the literals.
pub const SHEET_BUFFER: usize = (1 + ANSWER_LITERALS) * RECORD;
/// Bytes that the result buffer of one transformed value must have.
pub const VALUE_BUFFER: usize = RECORD;
/// Bytes that the result buffer of a verdict must have.
pub const VERDICT_BUFFER: usize = 1;

/// The answers' numbers, document 01's first.
pub mod number {
    pub const WRITTEN: u32 = 0;
    pub const NONE: u32 = 1;
    pub const SHORT_BUFFER: u32 = 2;
    pub const MALFORMED: u32 = 3;
    pub const NOT_UTF8: u32 = 4;
    pub const NO_RESULT_TYPE: u32 = 5;
    pub const DATA_INVALID: u32 = 6;
    pub const FEATURE_UNSUPPORTED: u32 = 7;
    pub const PANIC: u32 = 8;
    /// Document 02's, of filters alone.
    pub const OUTSIDE_GRAMMAR: u32 = 9;
    pub const TOO_LARGE: u32 = 10;
    /// And of summaries alone.
    pub const WRONG_SUMMARY: u32 = 11;
    pub const DIFFERENT_TYPES: u32 = 12;
}

/// Column types.
pub mod column {
    pub const INT: u8 = 1;
    pub const LONG: u8 = 2;
    pub const DATE: u8 = 3;
    pub const TIME: u8 = 4;
    pub const TIMESTAMP: u8 = 5;
    pub const TIMESTAMPTZ: u8 = 6;
    pub const TIMESTAMP_NS: u8 = 7;
    pub const TIMESTAMPTZ_NS: u8 = 8;
    pub const STRING: u8 = 9;
    pub const BINARY: u8 = 10;

    pub const ALL: [u8; 10] =
        [INT, LONG, DATE, TIME, TIMESTAMP, TIMESTAMPTZ, TIMESTAMP_NS, TIMESTAMPTZ_NS, STRING, BINARY];
}

/// Transforms.
pub mod transform {
    pub const IDENTITY: u8 = 0;
    pub const TRUNCATE: u8 = 1;
    pub const YEAR: u8 = 2;
    pub const MONTH: u8 = 3;
    pub const DAY: u8 = 4;
    pub const HOUR: u8 = 5;
    pub const VOID: u8 = 6;
    pub const UNKNOWN: u8 = 7;

    pub const ALL: [u8; 8] = [IDENTITY, TRUNCATE, YEAR, MONTH, DAY, HOUR, VOID, UNKNOWN];
}

/// Operators; the crate's own codes.
pub mod operator {
    pub const IS_NULL: u16 = 101;
    pub const NOT_NULL: u16 = 102;
    pub const IS_NAN: u16 = 103;
    pub const NOT_NAN: u16 = 104;
    pub const LESS: u16 = 201;
    pub const LESS_EQ: u16 = 202;
    pub const GREATER: u16 = 203;
    pub const GREATER_EQ: u16 = 204;
    pub const EQ: u16 = 205;
    pub const NOT_EQ: u16 = 206;
    pub const STARTS_WITH: u16 = 207;
    pub const NOT_STARTS_WITH: u16 = 208;
    pub const IN: u16 = 301;
    pub const NOT_IN: u16 = 302;

    pub const ALL: [u16; 14] = [
        IS_NULL,
        NOT_NULL,
        IS_NAN,
        NOT_NAN,
        LESS,
        LESS_EQ,
        GREATER,
        GREATER_EQ,
        EQ,
        NOT_EQ,
        STARTS_WITH,
        NOT_STARTS_WITH,
        IN,
        NOT_IN,
    ];
}

/// The two projections.
#[derive(Clone, Copy, Debug, PartialEq, Eq)]
pub enum Question {
    Inclusive,
    Strict,
}

/// A leaf of a filter on one column, with the transform that splits the table.
#[derive(Clone, Debug, PartialEq, Eq)]
pub struct Leaf {
    pub operator: u16,
    pub column: u8,
    pub transform: u8,
    pub width: u32,
    pub literals: Vec<Vec<u8>>,
}

/// What a projection answers: document 01's number and, after 0, the predicate's operator and literals, ascending by
/// document 01's order and without repeats.
#[derive(Clone, Debug, PartialEq, Eq)]
pub struct Answer {
    pub number: u32,
    pub predicate: Option<(u16, Vec<Vec<u8>>)>,
}

impl Answer {
    /// An answer that has no predicate.
    pub fn without(number: u32) -> Answer {
        Answer { number, predicate: None }
    }
}

/// What a row holds in the column.
#[derive(Clone, Debug, PartialEq, Eq)]
pub enum Value {
    Missing,
    Present(Vec<u8>),
}

/// What the transform of one value answers: the number and, after 0, the partition value.
#[derive(Clone, Debug, PartialEq, Eq)]
pub struct Transformed {
    pub number: u32,
    pub value: Option<Value>,
}

impl Transformed {
    /// An answer that has no value.
    pub fn without(number: u32) -> Transformed {
        Transformed { number, value: None }
    }
}

impl Leaf {
    /// Whether a well-formed sheet can hold the leaf; a string's UTF-8 is not looked at.
    pub fn is_well_formed(&self) -> bool {
        let count = match self.operator {
            operator::IN | operator::NOT_IN => 0..=LITERALS,
            operator::LESS..=operator::NOT_STARTS_WITH => 1..=1,
            _ => 0..=0,
        };
        operator::ALL.contains(&self.operator)
            && is_setting(self.column, self.transform, self.width)
            && count.contains(&self.literals.len())
            && self.literals.iter().all(|content| is_content(self.column, content))
    }
}

/// Whether type, transform and width are ones that a head may name.
pub fn is_setting(column: u8, transform: u8, width: u32) -> bool {
    column::ALL.contains(&column)
        && transform::ALL.contains(&transform)
        && (width == 0 || transform == transform::TRUNCATE)
}

/// Whether a content has a length that its column type allows.
pub fn is_content(column: u8, content: &[u8]) -> bool {
    match content_length(column) {
        Some(length) => content.len() == length,
        None => content.len() <= CONTENT,
    }
}

/// The length that every content of a column type has; none for strings and binaries, whose length varies.
pub fn content_length(column: u8) -> Option<usize> {
    match column {
        column::INT | column::DATE => Some(size_of::<i32>()),
        column::STRING | column::BINARY => None,
        _ => Some(size_of::<i64>()),
    }
}

/// Document 01's order of two contents of one column type: numbers signed, strings and binaries by byte.
pub fn compare(column: u8, a: &[u8], b: &[u8]) -> Ordering {
    match (signed(column, a), signed(column, b)) {
        (Some(x), Some(y)) => x.cmp(&y),
        _ => a.cmp(b),
    }
}

/// A content as a number, unless it is a string's or a binary's.
fn signed(column: u8, content: &[u8]) -> Option<i64> {
    content_length(column)?;
    match content.len() {
        4 => content.try_into().ok().map(|c| i32::from_le_bytes(c).into()),
        8 => content.try_into().ok().map(i64::from_le_bytes),
        _ => None,
    }
}
