//! The holds-test a second time: document 01's rules on when a value meets a leaf, with document 02's on missing values,
//! which the crate has no routine for.

use std::cmp::Ordering;

use beside::leaf::{Leaf, Value, compare, operator};

use crate::types::is_number;

/// Whether a value meets a leaf; both have been read, so literals and value are of the leaf's type.
pub fn meets(leaf: &Leaf, value: &Value) -> bool {
    let Value::Present(content) = value else {
        let met = [operator::IS_NULL, operator::NOT_EQ, operator::NOT_IN, operator::NOT_STARTS_WITH];
        return met.contains(&leaf.operator);
    };
    let order = |literal: &Vec<u8>| compare(leaf.column, content, literal);
    let begins = |literal: &Vec<u8>| !is_number(leaf.column) && content.starts_with(literal);
    let one = |test: &dyn Fn(&Vec<u8>) -> bool| leaf.literals.first().is_some_and(test);
    let any_equal = leaf.literals.iter().any(|literal| order(literal) == Ordering::Equal);
    match leaf.operator {
        operator::NOT_NULL | operator::NOT_NAN => true,
        operator::LESS => one(&|l| order(l).is_lt()),
        operator::LESS_EQ => one(&|l| order(l).is_le()),
        operator::GREATER => one(&|l| order(l).is_gt()),
        operator::GREATER_EQ => one(&|l| order(l).is_ge()),
        operator::STARTS_WITH => one(&begins),
        operator::NOT_STARTS_WITH => !one(&begins),
        operator::EQ | operator::IN => any_equal,
        operator::NOT_EQ | operator::NOT_IN => !any_equal,
        _ => false,
    }
}
