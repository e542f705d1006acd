//! The projections of a leaf: document 01's steps for Truncate of a number and of a String, document 02's of a Binary.

use sheets::filter::Asked;

use crate::Refusal;
use crate::columns::{Column, Transform, Type};
use crate::tree::{Leaf, Operator, Value};

/// A predicate on partition values, if there is one.
type Projected<'a> = Result<Option<(Operator, Value<'a>)>, Refusal>;

/// The inclusive or strict projection of a leaf.
pub fn project<'a>(asked: Asked, column: &Column, leaf: &Leaf<'a>) -> Projected<'a> {
    if column.result_type().is_none() {
        return Err(Refusal::NoResultType);
    }
    match (column.transform, leaf.literal) {
        (Transform::Unknown, _) => Err(Refusal::FeatureUnsupported),
        (Transform::Void, _) => Ok(None),
        (Transform::Identity, literal) => Ok(Some((leaf.operator, literal))),
        (Transform::Truncate(width), Value::Number(number)) => {
            project_number(asked, column.column, width, leaf.operator, number)
        }
        (Transform::Truncate(width), Value::String(text)) => {
            Ok(project_string(asked, width as usize, leaf.operator, text))
        }
        (Transform::Truncate(width), Value::Binary(bytes)) => {
            Ok(project_binary(asked, width as usize, leaf.operator, bytes))
        }
        _ => unimplemented!("the benchmark has no such column"),
    }
}

fn project_number<'a>(asked: Asked, of: Type, width: u32, operator: Operator, l: i64) -> Projected<'a> {
    use Operator::*;
    let (operator, l) = match (asked, operator) {
        (Asked::Strict, Less) => (Less, l),
        (Asked::Strict, LessOrEqual) => (Less, in_type(of, l.checked_add(1))?),
        (Asked::Strict, Greater) => (Greater, l),
        (Asked::Strict, GreaterOrEqual) => (Greater, in_type(of, l.checked_sub(1))?),
        (Asked::Strict, NotEqual) => (NotEqual, l),
        (Asked::Strict, _) => return Ok(None),
        (_, Less) => (LessOrEqual, in_type(of, l.checked_sub(1))?),
        (_, Greater) => (GreaterOrEqual, in_type(of, l.checked_add(1))?),
        (_, NotEqual) => return Ok(None),
        (_, same) => (same, l),
    };
    Ok(Some((operator, Value::Number(truncate(of, width, l)?))))
}

fn truncate(of: Type, width: u32, l: i64) -> Result<i64, Refusal> {
    if of == Type::Int && i32::try_from(width).is_err() {
        return Err(Refusal::DataInvalid);
    }
    let rest = l.checked_rem_euclid(width.into()).ok_or(Refusal::Overflow)?;
    in_type(of, l.checked_sub(rest))
}

fn in_type(of: Type, number: Option<i64>) -> Result<i64, Refusal> {
    number.filter(|number| of != Type::Int || i32::try_from(*number).is_ok()).ok_or(Refusal::Overflow)
}

fn project_string(asked: Asked, width: usize, operator: Operator, l: &str) -> Option<(Operator, Value<'_>)> {
    let start = l.char_indices().nth(width).map_or(l, |(end, _)| &l[..end]);
    let is_strict = asked == Asked::Strict;
    let operator = match operator {
        Operator::StartsWith | Operator::NotStartsWith => {
            let is_longer = start.len() < l.len();
            let is_as_long = !is_longer && start.chars().count() == width;
            project_start(is_strict, operator, is_longer, is_as_long)?
        }
        _ => project_comparison(is_strict, operator)?,
    };
    Some((operator, Value::String(start)))
}

fn project_binary(asked: Asked, width: usize, operator: Operator, l: &[u8]) -> Option<(Operator, Value<'_>)> {
    let start = &l[..width.min(l.len())];
    let is_strict = asked == Asked::Strict;
    let operator = match operator {
        Operator::StartsWith | Operator::NotStartsWith => {
            // the inclusive question keeps its operator where the literal is as long as the width
            project_start(is_strict, operator, l.len() > width, is_strict && l.len() == width)?
        }
        _ => project_comparison(is_strict, operator)?,
    };
    Some((operator, Value::Binary(start)))
}

fn project_comparison(is_strict: bool, operator: Operator) -> Option<Operator> {
    use Operator::*;
    match operator {
        Less | LessOrEqual => Some(if is_strict { Less } else { LessOrEqual }),
        Greater | GreaterOrEqual => Some(if is_strict { Greater } else { GreaterOrEqual }),
        Equal if is_strict => None,
        NotEqual if !is_strict => None,
        same => Some(same),
    }
}

fn project_start(is_strict: bool, operator: Operator, is_longer: bool, is_as_long: bool) -> Option<Operator> {
    use Operator::*;
    match operator {
        StartsWith if is_longer && is_strict => None,
        NotStartsWith if is_longer && !is_strict => None,
        StartsWith if is_as_long => Some(Equal),
        NotStartsWith if is_as_long => Some(NotEqual),
        same => Some(same),
    }
}
