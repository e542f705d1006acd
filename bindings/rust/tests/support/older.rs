//! Older writers, by the words of document 02 (#107): which transforms they rounded toward zero, and where they may have filed a row.

use weighpick::{Literal, Transform, Type, Value};

use super::{number, number_of};

/// 01: "Lifted: Year, Month, and Day of Timestamp only".
pub fn lifted(column_type: Type, transform: Transform) -> bool {
    match transform {
        Transform::Year | Transform::Month => true,
        Transform::Day => column_type == Type::Timestamp,
        _ => false,
    }
}

/// The number above a negative one.
pub fn next(literal: &Literal) -> Option<Literal> {
    let below_0 = number_of(literal).filter(|v| *v < 0)?;
    number(literal.column_type(), below_0 + 1)
}

/// 02: "a row with a negative partition value p may be filed under p or p+1".
pub fn filings(column_type: Type, transform: Transform, partition_value: Value) -> Vec<Value> {
    let above = match &partition_value {
        Value::Present(literal) if lifted(column_type, transform) => next(literal),
        _ => None,
    };
    let above = above.map(Value::from);
    [partition_value].into_iter().chain(above).collect()
}
