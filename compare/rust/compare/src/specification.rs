//! What the specification gives on the inputs that a rule is about (`rules`): Day and Hour of timestamps, prefixes under
//! Truncate, and Truncate of a Binary. The answers are worked out from the papers' steps, in 128 bits and without asking
//! the port.

use std::cmp::Ordering;
use std::collections::BTreeSet;
use std::ops::RangeInclusive;

use beside::leaf::{Answer, Leaf, Question, Transformed, Value, column, number, operator, transform};

use crate::types::{self, SECONDS_PER_DAY, SECONDS_PER_HOUR, per_second};

/// The answer to a leaf that a rule is about.
pub fn answer(question: Question, leaf: &Leaf) -> Answer {
    match (leaf.transform, leaf.column) {
        (transform::TRUNCATE, column::BINARY) => binary_answer(question, leaf),
        (transform::TRUNCATE, _) => prefix_answer(question, leaf),
        _ => moments_answer(question, leaf).unwrap_or_else(Answer::without),
    }
}

/// The transform of a value that a rule is about.
pub fn transformed(column: u8, transform: u8, width: u32, content: &[u8]) -> Transformed {
    let partition = match transform {
        transform::TRUNCATE => Ok(first_bytes(content, width)),
        _ => partition(column, transform, types::number(content).into()).map(result),
    };
    match partition {
        Ok(content) => Transformed { number: number::WRITTEN, value: Some(Value::Present(content)) },
        Err(number) => Transformed::without(number),
    }
}

// ---- Day and Hour of the four timestamps

/// Document 01's row for a leaf over numbers: the predicate's operator, and what is added to L before T. None where the
/// row has no predicate, and for operators without literals, which pass through.
fn row(question: Question, operator: u16) -> Option<(u16, i128)> {
    use Question::{Inclusive, Strict};
    match (question, operator) {
        (Inclusive, operator::LESS) => Some((operator::LESS_EQ, -1)),
        (Inclusive, operator::LESS_EQ) => Some((operator::LESS_EQ, 0)),
        (Inclusive, operator::GREATER) => Some((operator::GREATER_EQ, 1)),
        (Inclusive, operator::GREATER_EQ) => Some((operator::GREATER_EQ, 0)),
        (Strict, operator::LESS) => Some((operator::LESS, 0)),
        (Strict, operator::LESS_EQ) => Some((operator::LESS, 1)),
        (Strict, operator::GREATER) => Some((operator::GREATER, 0)),
        (Strict, operator::GREATER_EQ) => Some((operator::GREATER, -1)),
        (Inclusive, operator::EQ | operator::STARTS_WITH | operator::NOT_STARTS_WITH | operator::IN)
        | (Strict, operator::NOT_EQ | operator::NOT_IN) => Some((operator, 0)),
        _ => None,
    }
}

/// The moments that a leaf's row hands to T: each L, moved as the row says. None where the row needs no T.
pub fn moments(question: Question, leaf: &Leaf) -> Option<(u16, Vec<i128>)> {
    let (operator, moved) = row(question, leaf.operator)?;
    let moments = leaf.literals.iter().map(|content| i128::from(types::number(content)) + moved).collect();
    Some((operator, moments))
}

/// Day or Hour by the specification: division toward minus infinity. 8 where 32 bits do not hold the result.
pub fn partition(column: u8, transform: u8, moment: i128) -> Result<i128, u32> {
    let seconds = if transform == transform::DAY { SECONDS_PER_DAY } else { SECONDS_PER_HOUR };
    let value = moment.div_euclid(second(column) * i128::from(seconds));
    if is_in(types::range(column::INT), value) { Ok(value) } else { Err(number::PANIC) }
}

/// Document 01's steps for a leaf whose row needs T, with its refusals.
fn moments_answer(question: Question, leaf: &Leaf) -> Result<Answer, u32> {
    let (operator, moments) = moments(question, leaf).ok_or(number::NONE)?;
    if moments.iter().any(|moment| !is_in(types::range(leaf.column), *moment)) {
        return Err(number::PANIC);
    }
    let partitions: Result<BTreeSet<i128>, u32> =
        moments.into_iter().map(|moment| partition(leaf.column, leaf.transform, moment)).collect();
    let is_lifted =
        question == Question::Inclusive && (leaf.transform, leaf.column) == (transform::DAY, column::TIMESTAMP);
    let (operator, partitions) = if is_lifted { lift(operator, partitions?) } else { (operator, partitions?) };
    let literals = partitions.into_iter().map(result).collect();
    Ok(Answer { number: number::WRITTEN, predicate: Some((operator, literals)) })
}

/// Document 01's "Lifted": with a negative T, < and ≤ use T+1, Eq becomes In of T and T+1, In adds T+1.
fn lift(operator: u16, partitions: BTreeSet<i128>) -> (u16, BTreeSet<i128>) {
    let above: BTreeSet<i128> = partitions.iter().filter(|value| **value < 0).map(|value| value + 1).collect();
    match operator {
        _ if above.is_empty() => (operator, partitions),
        operator::LESS_EQ => (operator, above),
        operator::EQ | operator::IN => (operator::IN, &partitions | &above),
        _ => (operator, partitions),
    }
}

/// A day or an hour as a content: both results have 4 bytes.
fn result(value: i128) -> Vec<u8> {
    types::content(column::INT, value as i64)
}

/// A second in the unit of a timestamp.
pub fn second(column: u8) -> i128 {
    per_second(column).unwrap_or(1).into()
}

/// Whether a type has a number, which may have left 64 bits.
pub fn is_in(range: RangeInclusive<i64>, value: i128) -> bool {
    i64::try_from(value).is_ok_and(|value| range.contains(&value))
}

// ---- StartsWith and NotStartsWith of a String under Truncate

/// What a prefix leaf compares: the literal's code points and bytes, and the width.
pub struct Prefix<'a> {
    pub text: &'a str,
    pub code_points: usize,
    pub bytes: usize,
    pub width: usize,
}

/// The parts of a prefix leaf; none where its literal is not UTF-8.
pub fn prefix(leaf: &Leaf) -> Option<Prefix<'_>> {
    let text = std::str::from_utf8(leaf.literals.first()?).ok()?;
    Some(Prefix { text, code_points: text.chars().count(), bytes: text.len(), width: leaf.width as usize })
}

/// Document 01's lines on StartsWith and NotStartsWith, n being code points.
fn prefix_answer(question: Question, leaf: &Leaf) -> Answer {
    let Some(Prefix { text, code_points, width, .. }) = prefix(leaf) else {
        return Answer::without(number::NOT_UTF8);
    };
    let starts = leaf.operator == operator::STARTS_WITH;
    let none_when_longer = starts == (question == Question::Strict);
    let operator = match code_points.cmp(&width) {
        Ordering::Equal if starts => operator::EQ,
        Ordering::Equal => operator::NOT_EQ,
        Ordering::Greater if none_when_longer => return Answer::without(number::NONE),
        _ => leaf.operator,
    };
    let kept: String = text.chars().take(width).collect();
    Answer { number: number::WRITTEN, predicate: Some((operator, vec![kept.into_bytes()])) }
}

// ---- Binaries under Truncate

/// Document 02's "its first width bytes".
fn first_bytes(content: &[u8], width: u32) -> Vec<u8> {
    content.iter().take(width as usize).copied().collect()
}

/// Whether a leaf has a literal of more bytes than the width.
pub fn is_longer(leaf: &Leaf) -> bool {
    leaf.literals.iter().any(|literal| literal.len() > leaf.width as usize)
}

/// Document 02's lines on inclusive StartsWith and NotStartsWith, and for the rest document 01's on strings.
fn binary_answer(question: Question, leaf: &Leaf) -> Answer {
    use Question::{Inclusive, Strict};
    let operator = match (question, leaf.operator) {
        (Inclusive, operator::NOT_STARTS_WITH) if is_longer(leaf) => return Answer::without(number::NONE),
        (Inclusive, operator::LESS | operator::LESS_EQ) => operator::LESS_EQ,
        (Inclusive, operator::GREATER | operator::GREATER_EQ) => operator::GREATER_EQ,
        (Strict, operator::LESS | operator::LESS_EQ) => operator::LESS,
        (Strict, operator::GREATER | operator::GREATER_EQ) => operator::GREATER,
        (_, kept) => kept,
    };
    let literals: BTreeSet<Vec<u8>> = leaf.literals.iter().map(|literal| first_bytes(literal, leaf.width)).collect();
    Answer { number: number::WRITTEN, predicate: Some((operator, literals.into_iter().collect())) }
}
