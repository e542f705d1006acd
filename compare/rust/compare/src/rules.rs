//! Where port and crate part (docs/DIFFERENCES.md), as rules: which inputs a difference is about. There the answer of
//! `specification` is expected; on every other input the crate's is.

use beside::leaf::{Leaf, Question, column, operator, transform};

use crate::specification::{Prefix, is_in, is_longer, moments, partition, prefix, second};
use crate::types::{self, SECONDS_PER_DAY};

/// The differences, apart by how their inputs are named.
#[derive(Clone, Copy, Debug, PartialEq, Eq, PartialOrd, Ord)]
pub enum Rule {
    /// Day before 1970, of a value or of a leaf with one literal, in microseconds and in nanoseconds.
    DayMicros,
    DayNanos,
    /// Day before 1970, of a set. Other literals of the set may make up for the days that the crate gets wrong.
    DaySet,
    /// Hour beyond 32 bits.
    Hour,
    /// StartsWith and NotStartsWith under Truncate: the width counts code points.
    CodePoints,
    /// Truncate of a Binary, of a value and wherever a leaf's steps need it: the crate does not support it.
    Binary,
}

impl Rule {
    pub const ALL: [Rule; 6] =
        [Rule::DayMicros, Rule::DayNanos, Rule::DaySet, Rule::Hour, Rule::CodePoints, Rule::Binary];

    pub fn name(self) -> &'static str {
        match self {
            Rule::DayMicros => "Day before 1970, microseconds",
            Rule::DayNanos => "Day before 1970, nanoseconds",
            Rule::DaySet => "Day before 1970, sets",
            Rule::Hour => "Hour beyond 32 bits",
            Rule::CodePoints => "prefix counted in code points",
            Rule::Binary => "Truncate of a Binary",
        }
    }
}

/// The rule that a leaf comes under, if any.
pub fn for_leaf(question: Question, leaf: &Leaf) -> Option<Rule> {
    match (leaf.transform, leaf.column) {
        (transform::DAY | transform::HOUR, column::TIMESTAMP..=column::TIMESTAMPTZ_NS) => for_moments(question, leaf),
        (transform::TRUNCATE, column::STRING) => for_prefix(question, leaf),
        (transform::TRUNCATE, column::BINARY) => is_cut(question, leaf).then_some(Rule::Binary),
        _ => None,
    }
}

/// The rule that the transform of a present value comes under, if any.
pub fn for_value(column: u8, transform: u8, content: &[u8]) -> Option<Rule> {
    match (transform, column) {
        (transform::DAY | transform::HOUR, column::TIMESTAMP..=column::TIMESTAMPTZ_NS) => {
            for_moment(column, transform, types::number(content).into())
        }
        (transform::TRUNCATE, column::BINARY) => Some(Rule::Binary),
        _ => None,
    }
}

// ---- Day and Hour of the four timestamps

fn for_moment(column: u8, transform: u8, moment: i128) -> Option<Rule> {
    match transform {
        transform::HOUR => hour_departs(column, moment).then_some(Rule::Hour),
        _ => day_departs(column, moment).then(|| day_rule(column)),
    }
}

/// A rule is about the moments that reach T, so the inputs that it names move with L-1 and L+1. A moment that left the
/// type does not reach T: there port and crate both answer 8.
fn for_moments(question: Question, leaf: &Leaf) -> Option<Rule> {
    let (operator, moments) = moments(question, leaf)?;
    let mut reaching = moments.into_iter().filter(|moment| is_in(types::range(leaf.column), *moment));
    let is_set = matches!(operator, operator::IN | operator::NOT_IN);
    match leaf.transform {
        transform::HOUR => reaching.any(|moment| hour_departs(leaf.column, moment)).then_some(Rule::Hour),
        _ if !reaching.any(|moment| day_departs(leaf.column, moment)) => None,
        _ => Some(if is_set { Rule::DaySet } else { day_rule(leaf.column) }),
    }
}

fn day_rule(column: u8) -> Rule {
    match column {
        column::TIMESTAMP | column::TIMESTAMPTZ => Rule::DayMicros,
        _ => Rule::DayNanos,
    }
}

/// For a midnight m at or below the one a day before 1970, the crate's Day is one too high from m - (second - 1) to
/// m - 2, a second being 1,000,000 microseconds or 1,000,000,000 nanoseconds.
fn day_departs(column: u8, moment: i128) -> bool {
    let second = second(column);
    let day = second * i128::from(SECONDS_PER_DAY);
    let before_midnight = day - moment.rem_euclid(day);
    let midnight = moment + before_midnight;
    midnight <= -day && (2..second).contains(&before_midnight)
}

/// Hours that 32 bits signed do not hold; the crate drops their upper bits.
fn hour_departs(column: u8, moment: i128) -> bool {
    partition(column, transform::HOUR, moment).is_err()
}

// ---- StartsWith and NotStartsWith of a String under Truncate

/// The crate compares bytes with the width. That shows where the width is the code points or the bytes of a literal
/// beyond ASCII; between the two as well, where a literal longer than the width has no predicate.
fn for_prefix(question: Question, leaf: &Leaf) -> Option<Rule> {
    let between_shows = match (question, leaf.operator) {
        (Question::Inclusive, operator::STARTS_WITH) | (Question::Strict, operator::NOT_STARTS_WITH) => false,
        (Question::Strict, operator::STARTS_WITH) | (Question::Inclusive, operator::NOT_STARTS_WITH) => true,
        _ => return None,
    };
    let Prefix { code_points, bytes, width, .. } = prefix(leaf)?;
    let shows = width == code_points || width == bytes || between_shows && (code_points..bytes).contains(&width);
    (code_points < bytes && shows).then_some(Rule::CodePoints)
}

// ---- Binaries under Truncate

/// Whether the crate's steps cut a literal, for which it answers 7. The inclusive question cuts a prefix whatever its
/// length is, the strict one that of NotStartsWith alone, where it is longer than the width.
fn is_cut(question: Question, leaf: &Leaf) -> bool {
    use Question::{Inclusive, Strict};
    match (question, leaf.operator) {
        (Inclusive, operator::LESS..=operator::EQ | operator::STARTS_WITH | operator::NOT_STARTS_WITH)
        | (Strict, operator::LESS..=operator::GREATER_EQ | operator::NOT_EQ) => true,
        (Strict, operator::NOT_STARTS_WITH) => is_longer(leaf),
        (Inclusive, operator::IN) | (Strict, operator::NOT_IN) => !leaf.literals.is_empty(),
        _ => false,
    }
}

#[cfg(test)]
mod tests {
    use beside::leaf::{Answer, Value, number};

    use super::*;
    use crate::specification::{answer, transformed};

    fn day(column: u8, operator: u16, moment: i64) -> Leaf {
        Leaf { operator, column, transform: transform::DAY, width: 0, literals: vec![types::content(column, moment)] }
    }

    /// Document 01's starred moments: Day of -86400000001 and -86400000002 microseconds; its window's two ends.
    #[test]
    fn day_of_the_paper() {
        let named = |moment: i64| for_value(column::TIMESTAMP, transform::DAY, &moment.to_le_bytes());
        assert_eq!(named(-86_400_000_001), None);
        assert_eq!(named(-86_400_000_002), Some(Rule::DayMicros));
        assert_eq!(named(-86_400_999_999), Some(Rule::DayMicros));
        assert_eq!(named(-86_401_000_000), None);
        assert_eq!(named(-2), None);
        let is = transformed(column::TIMESTAMP, transform::DAY, 0, &(-86_400_000_002_i64).to_le_bytes());
        assert_eq!(is.value, Some(Value::Present((-2_i32).to_le_bytes().to_vec())));
    }

    /// The window moves by one with L-1 and L+1; Timestamp is lifted and Timestamptz is not.
    #[test]
    fn day_in_a_leaf() {
        let less = day(column::TIMESTAMP, operator::LESS, -86_400_000_001);
        assert_eq!(for_leaf(Question::Inclusive, &less), Some(Rule::DayMicros));
        assert_eq!(for_leaf(Question::Strict, &less), None);
        let lifted = answer(Question::Inclusive, &less).predicate;
        assert_eq!(lifted, Some((operator::LESS_EQ, vec![(-1_i32).to_le_bytes().to_vec()])));
        let plain = day(column::TIMESTAMPTZ, operator::LESS, -86_400_000_001);
        let plain = answer(Question::Inclusive, &plain).predicate;
        assert_eq!(plain, Some((operator::LESS_EQ, vec![(-2_i32).to_le_bytes().to_vec()])));
    }

    /// Document 01's "é" at width 2, and at width 1, its own length.
    #[test]
    fn prefix_of_the_paper() {
        let accented = "é".as_bytes().to_vec();
        let leaf = |width| Leaf {
            operator: operator::STARTS_WITH,
            column: column::STRING,
            transform: transform::TRUNCATE,
            width,
            literals: vec![accented.clone()],
        };
        for (width, operator) in [(1, operator::EQ), (2, operator::STARTS_WITH)] {
            assert_eq!(for_leaf(Question::Inclusive, &leaf(width)), Some(Rule::CodePoints));
            let found = answer(Question::Inclusive, &leaf(width)).predicate;
            assert_eq!(found, Some((operator, vec![accented.clone()])));
        }
        assert_eq!(for_leaf(Question::Inclusive, &leaf(3)), None);
    }

    fn binary(operator: u16, width: u32, literals: &[&[u8]]) -> Leaf {
        let literals = literals.iter().map(|literal| literal.to_vec()).collect();
        Leaf { operator, column: column::BINARY, transform: transform::TRUNCATE, width, literals }
    }

    /// What the rule gives for a leaf of Binaries, under both questions; none where there is no rule.
    fn given(operator: u16, width: u32, literals: &[&[u8]]) -> [Option<Answer>; 2] {
        let leaf = binary(operator, width, literals);
        [Question::Inclusive, Question::Strict]
            .map(|question| for_leaf(question, &leaf).map(|_| answer(question, &leaf)))
    }

    fn predicate(operator: u16, literals: &[&[u8]]) -> Option<Answer> {
        let literals = literals.iter().map(|literal| literal.to_vec()).collect();
        Some(Answer { number: number::WRITTEN, predicate: Some((operator, literals)) })
    }

    /// Document 02's "abc", which "abx" doesn't start with, at width 2; and shorter ones and those of the width.
    #[test]
    fn binary_prefixes() {
        let (starts, not) = (operator::STARTS_WITH, operator::NOT_STARTS_WITH);
        let none = Some(Answer::without(number::NONE));
        assert_eq!(given(starts, 2, &[b"abc"]), [predicate(starts, &[b"ab"]), None]);
        assert_eq!(given(not, 2, &[b"abc"]), [none, predicate(not, &[b"ab"])]);
        for literal in [&b"ab"[..], b"a", b""] {
            assert_eq!(given(starts, 2, &[literal]), [predicate(starts, &[literal]), None]);
            assert_eq!(given(not, 2, &[literal]), [predicate(not, &[literal]), None]);
        }
    }

    /// The comparisons, at width 0 and with a cut inside of "é".
    #[test]
    fn binary_comparisons() {
        for (width, cut) in [(0, &b""[..]), (1, b"\xc3"), (2, b"\xc3\xa9"), (3, b"\xc3\xa9")] {
            let given = |operator| given(operator, width, &["é".as_bytes()]);
            let is = |operator| predicate(operator, &[cut]);
            assert_eq!(given(operator::LESS), [is(operator::LESS_EQ), is(operator::LESS)]);
            assert_eq!(given(operator::LESS_EQ), [is(operator::LESS_EQ), is(operator::LESS)]);
            assert_eq!(given(operator::GREATER), [is(operator::GREATER_EQ), is(operator::GREATER)]);
            assert_eq!(given(operator::GREATER_EQ), [is(operator::GREATER_EQ), is(operator::GREATER)]);
            assert_eq!(given(operator::EQ), [is(operator::EQ), None]);
            assert_eq!(given(operator::NOT_EQ), [None, is(operator::NOT_EQ)]);
            let value = transformed(column::BINARY, transform::TRUNCATE, width, "é".as_bytes());
            assert_eq!(value.value, Some(Value::Present(cut.to_vec())));
        }
    }

    /// Sets lose what coincides; empty ones need no cut.
    #[test]
    fn binary_sets() {
        let (set, cut): ([&[u8]; 3], [&[u8]; 2]) = ([b"b\xff", b"a", b"b\0"], [b"a", b"b"]);
        assert_eq!(given(operator::IN, 1, &set), [predicate(operator::IN, &cut), None]);
        assert_eq!(given(operator::NOT_IN, 1, &set), [None, predicate(operator::NOT_IN, &cut)]);
        assert_eq!(given(operator::IN, 1, &[]), [None, None]);
        assert_eq!(given(operator::NOT_IN, 1, &[]), [None, None]);
    }
}
