//! What several tests use: a generator of leaves, filters and rows that gives the same ones every time, when a row meets a leaf, and
//! where older writers may have filed one.

// Each test is a program of its own and uses a part of this module.
#![allow(dead_code)]

pub mod files;
pub mod filters;
pub mod meets;
pub mod older;
pub mod sample;

use weighpick::sheet::{
    project_into, strict_project_into, strict_project_older_into, SHEET_BUFFER,
};
use weighpick::{Leaf, Literal, Predicate, PredicateOperator, Refusal, Transform, Type};

/// What a buffer holds before a call, so that a byte written to it shows.
pub const BEFORE: u8 = 0xa5;

/// All transforms, with some widths.
pub const TRANSFORMS: [Transform; 12] = [
    Transform::Identity,
    Transform::Truncate(0),
    Transform::Truncate(1),
    Transform::Truncate(2),
    Transform::Truncate(10),
    Transform::Truncate(u32::MAX),
    Transform::Year,
    Transform::Month,
    Transform::Day,
    Transform::Hour,
    Transform::Void,
    Transform::Unknown,
];

/// The literal of a number type with a number that lies in it.
pub fn number(column_type: Type, v: i64) -> Option<Literal> {
    Some(match column_type {
        Type::Int => Literal::Int(v.try_into().ok()?),
        Type::Long => Literal::Long(v),
        Type::Date => Literal::Date(v.try_into().ok()?),
        Type::Time => Literal::Time(v),
        Type::Timestamp => Literal::Timestamp(v),
        Type::Timestamptz => Literal::Timestamptz(v),
        Type::TimestampNs => Literal::TimestampNs(v),
        Type::TimestamptzNs => Literal::TimestamptzNs(v),
        Type::String | Type::Binary => return None,
    })
}

/// The number of a literal of a number type.
pub fn number_of(literal: &Literal) -> Option<i64> {
    match literal {
        Literal::Int(v) | Literal::Date(v) => Some(i64::from(*v)),
        Literal::Long(v)
        | Literal::Time(v)
        | Literal::Timestamp(v)
        | Literal::Timestamptz(v)
        | Literal::TimestampNs(v)
        | Literal::TimestamptzNs(v) => Some(*v),
        Literal::String(_) | Literal::Binary(_) => None,
    }
}

/// Small windows of a number type, ascending: at 0 and at both of its ends.
pub fn windows(column_type: Type, size: i64) -> Vec<Vec<Literal>> {
    let bytes = match column_type {
        Type::Int | Type::Date => 4,
        _ => 8,
    };
    let (lowest, highest) = (i64::MIN >> (64 - 8 * bytes), i64::MAX >> (64 - 8 * bytes));
    let starts = [lowest, -2, highest - (size - 1)];
    let window =
        |start| (0..size).map(move |n| number(column_type, start + n).expect("in the type"));
    starts.map(|start| window(start).collect()).into()
}

/// A projection's answer as operator and literals.
pub fn said(
    answer: Result<Option<Predicate>, Refusal>,
) -> Result<Option<(PredicateOperator, Vec<Literal>)>, Refusal> {
    Ok(answer?.map(|p| (p.operator(), p.literals().collect())))
}

/// The inclusive and the two strict answer sheets of a sheet, the one for files of older writers last, each asked with a buffer of
/// its own. Every byte of the buffer behind the answer, all of them where there is none, is as it was.
pub fn answers(sheet: &[u8]) -> [Result<Option<Vec<u8>>, Refusal>; 3] {
    let projections = [project_into, strict_project_into, strict_project_older_into];
    projections.map(|projection| {
        let mut out = [BEFORE; SHEET_BUFFER + 1];
        let answer = projection(sheet, &mut out).map(|found| found.map(<[u8]>::to_vec));
        let written = answer
            .as_ref()
            .map_or(0, |found| found.as_ref().map_or(0, Vec::len));
        assert!(out[written..].iter().all(|&byte| byte == BEFORE));
        answer
    })
}

/// Every leaf without a literal, every one with one of some literals, and every one with one of some sets.
pub fn leaves_of(
    column_type: Type,
    transform: Transform,
    literals: &[Literal],
    sets: &[Vec<Literal>],
) -> Vec<Leaf> {
    let mut leaves = Vec::new();
    for operator in PredicateOperator::ALL {
        if operator.is_unary() {
            leaves.push(Leaf::unary(operator, column_type, transform));
        } else if operator.is_binary() {
            let binary = |literal| Leaf::binary(operator, transform, literal);
            leaves.extend(literals.iter().map(binary));
        } else {
            let set = |set| Leaf::set(operator, column_type, transform, set);
            leaves.extend(sets.iter().map(set));
        }
    }
    leaves
        .into_iter()
        .map(|leaf| leaf.expect("within the limits"))
        .collect()
}
