//! Inputs and answers in words, for the differences that are printed.

use beside::leaf::{Leaf, Value, column, operator, transform};
use beside::sheet::{column_of, predicate_of, value_of};

use crate::expect::Written;
use crate::types::{self, is_number};

const OPERATORS: [&str; 14] = [
    "IsNull",
    "NotNull",
    "IsNan",
    "NotNan",
    "<",
    "≤",
    ">",
    "≥",
    "Eq",
    "NotEq",
    "StartsWith",
    "NotStartsWith",
    "In",
    "NotIn",
];
const COLUMNS: [&str; 10] =
    ["Int", "Long", "Date", "Time", "Timestamp", "Timestamptz", "TimestampNs", "TimestamptzNs", "String", "Binary"];
const TRANSFORMS: [&str; 8] = ["Identity", "Truncate", "Year", "Month", "Day", "Hour", "Void", "Unknown"];

/// The name at the place that a number has among all, or a question mark.
fn name<T: PartialEq>(all: &[T], number: T, names: &[&'static str]) -> &'static str {
    all.iter().position(|other| *other == number).map_or("?", |at| names[at])
}

pub fn operator_name(number: u16) -> &'static str {
    name(&operator::ALL, number, &OPERATORS)
}

/// Transform and type, as "Truncate 10 of Int".
pub fn pair(transform: u8, width: u32, column: u8) -> String {
    let of = name(&transform::ALL, transform, &TRANSFORMS);
    let column = name(&column::ALL, column, &COLUMNS);
    if transform == transform::TRUNCATE { format!("{of} {width} of {column}") } else { format!("{of} of {column}") }
}

/// A leaf, as "Truncate 10 of Int, < 300".
pub fn leaf(leaf: &Leaf) -> String {
    let pair = pair(leaf.transform, leaf.width, leaf.column);
    format!("{pair}, {}{}", operator_name(leaf.operator), literals(leaf.column, &leaf.literals))
}

pub fn value(column: u8, value: &Value) -> String {
    match value {
        Value::Missing => "missing".to_string(),
        Value::Present(content) => content_text(column, content),
    }
}

/// An answer, as program `weighpick` prints one: the number, then operator and literals of an answer sheet, or the value
/// of a record of this type. Bytes that are neither are printed as they are.
pub fn answer(answer: &Written, value_type: Option<u8>) -> String {
    let bytes = &answer.bytes;
    let result = match value_type {
        _ if bytes.is_empty() => return answer.number.to_string(),
        Some(column) => value_of(bytes).map(|result| value(column, &result)),
        None => predicate_of(bytes).zip(column_of(bytes)).map(|((operator, list), column)| {
            let literals = literals(column, &list);
            format!("{operator}{literals}")
        }),
    };
    format!("{} {}", answer.number, result.unwrap_or_else(|| hex(bytes)))
}

/// Literals as program `weighpick` prints them, each after a space.
pub fn literals(column: u8, literals: &[Vec<u8>]) -> String {
    literals.iter().map(|content| format!(" {}", content_text(column, content))).collect()
}

/// A content as `weighpick` prints it: numbers decimal, strings and binaries hexadecimal, an empty one as `-`.
fn content_text(column: u8, content: &[u8]) -> String {
    match content {
        _ if is_number(column) => types::number(content).to_string(),
        [] => "-".to_string(),
        _ => hex(content),
    }
}

pub fn hex(bytes: &[u8]) -> String {
    bytes.iter().map(|byte| format!("{byte:02x}")).collect()
}
