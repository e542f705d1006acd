//! When a row meets a leaf, by the words of document 01 ("Holds-test"), of 02 (#106) on missing values, and Rust's own
//! comparisons.

use std::cmp::Ordering;

use weighpick::{Leaf, Literal, PredicateOperator, Value};

use super::number_of;

/// Whether a row meets a leaf.
pub fn meets(leaf: &Leaf, row: &Value) -> bool {
    let Value::Present(value) = row else {
        return meets_missing(leaf.operator());
    };
    match leaf.operator() {
        PredicateOperator::IsNull | PredicateOperator::IsNan => false,
        PredicateOperator::NotNull | PredicateOperator::NotNan => true,
        PredicateOperator::In => leaf.literals().any(|l| l == *value),
        PredicateOperator::NotIn => leaf.literals().all(|l| l != *value),
        operator => {
            let literal = leaf.literals().next().expect("a leaf with one literal");
            meets_one(operator, value, &literal)
        }
    }
}

/// 02: "a missing value meets NotEq, NotIn and NotStartsWith, numbers included, besides IsNull".
pub fn meets_missing(operator: PredicateOperator) -> bool {
    use PredicateOperator::{IsNull, NotEq, NotIn, NotStartsWith};
    [NotEq, NotIn, NotStartsWith, IsNull].contains(&operator)
}

/// Whether a present value meets an operator with one literal.
fn meets_one(operator: PredicateOperator, value: &Literal, literal: &Literal) -> bool {
    let order = compare(value, literal);
    match operator {
        PredicateOperator::LessThan => order.is_lt(),
        PredicateOperator::LessThanOrEq => order.is_le(),
        PredicateOperator::GreaterThan => order.is_gt(),
        PredicateOperator::GreaterThanOrEq => order.is_ge(),
        PredicateOperator::Eq => order.is_eq(),
        PredicateOperator::NotEq => order.is_ne(),
        PredicateOperator::StartsWith => starts_with(value, literal),
        PredicateOperator::NotStartsWith => !starts_with(value, literal),
        other => panic!("{other} takes no single literal"),
    }
}

/// Numbers signed, strings and binaries by byte.
pub fn compare(a: &Literal, b: &Literal) -> Ordering {
    match (number_of(a), number_of(b)) {
        (Some(a), Some(b)) => a.cmp(&b),
        _ => bytes_of(a).cmp(bytes_of(b)),
    }
}

/// Whether a string or binary starts with another; no number does.
fn starts_with(value: &Literal, literal: &Literal) -> bool {
    number_of(value).is_none() && bytes_of(value).starts_with(bytes_of(literal))
}

/// The bytes of a string or binary.
pub fn bytes_of(literal: &Literal) -> &[u8] {
    match literal {
        Literal::String(text) => text.as_bytes(),
        Literal::Binary(bytes) => bytes,
        other => panic!("{other:?} is a number"),
    }
}
