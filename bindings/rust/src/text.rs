//! Literals, values, leaves and predicates as text, written and read back; summaries have theirs beside their type.
//!
//! ```text
//! int 300                               a literal: its type and its content
//! missing                               a value that is none
//! int truncate[10] < 300                a leaf: the column's type, the transform, the operator, a literal's content
//! date month IS NULL                    no literal
//! string truncate[2] IN ("ab", "cd")    a set
//! int <= 290                            a predicate: the same without a transform
//! ```

use std::fmt::{self, Display, Formatter};
use std::str::FromStr;

use crate::contents::{take_literal, Content};
use crate::record::LITERALS_MAX;
use crate::typed_sheet::Sheet;
use crate::{
    Error, Leaf, LeafError, Literal, ParseError, Predicate, PredicateOperator, Transform, Type,
    Value,
};

/// How a missing value is written.
pub(crate) const MISSING: &str = "missing";

impl Display for Literal {
    fn fmt(&self, f: &mut Formatter<'_>) -> fmt::Result {
        write!(f, "{} {}", self.column_type(), Content(self))
    }
}

impl FromStr for Literal {
    type Err = ParseError;

    fn from_str(text: &str) -> Result<Literal, ParseError> {
        let (column_type, content) = take_word::<Type>(text)?;
        match take_literal(column_type, content) {
            Some((literal, "")) => Ok(literal),
            _ => Err(ParseError::new(text, "literal")),
        }
    }
}

impl Display for Value {
    fn fmt(&self, f: &mut Formatter<'_>) -> fmt::Result {
        match self {
            Value::Missing => f.write_str(MISSING),
            Value::Present(literal) => literal.fmt(f),
        }
    }
}

impl FromStr for Value {
    type Err = ParseError;

    fn from_str(text: &str) -> Result<Value, ParseError> {
        match text {
            MISSING => Ok(Value::Missing),
            _ => text.parse().map(Value::Present),
        }
    }
}

impl Display for Leaf {
    fn fmt(&self, f: &mut Formatter<'_>) -> fmt::Result {
        write!(f, "{} {} ", self.column_type(), self.transform())?;
        write_condition(self.operator(), self.literals(), f)
    }
}

impl FromStr for Leaf {
    type Err = Error;

    fn from_str(text: &str) -> Result<Leaf, Error> {
        let (column_type, rest) = take_word(text)?;
        let (transform, condition) = take_word(rest)?;
        let sheet = read_condition(column_type, transform, condition)?;
        if sheet.len() > LITERALS_MAX {
            return Err(LeafError::TooMany(LITERALS_MAX).into());
        }
        Ok(Leaf::from_sheet(sheet))
    }
}

impl Display for Predicate {
    fn fmt(&self, f: &mut Formatter<'_>) -> fmt::Result {
        write!(f, "{} ", self.column_type())?;
        write_condition(self.operator(), self.literals(), f)
    }
}

impl FromStr for Predicate {
    type Err = Error;

    fn from_str(text: &str) -> Result<Predicate, Error> {
        let (column_type, condition) = take_word(text)?;
        let sheet = read_condition(column_type, Transform::Identity, condition)?;
        Ok(Predicate::from_sheet(sheet))
    }
}

/// Writes the operator and, if it takes any, the literals' contents; those of a set in brackets.
fn write_condition(
    operator: PredicateOperator,
    literals: impl Iterator<Item = Literal>,
    f: &mut Formatter<'_>,
) -> fmt::Result {
    write!(f, "{operator}")?;
    let (open, close) = if operator.is_set() {
        (" (", ")")
    } else {
        (" ", "")
    };
    if operator.is_unary() {
        return Ok(());
    }
    f.write_str(open)?;
    for (before, literal) in literals.enumerate() {
        f.write_str(if before == 0 { "" } else { ", " })?;
        write!(f, "{}", Content(&literal))?;
    }
    f.write_str(close)
}

/// The first word of a text, and what comes after the space.
pub(crate) fn take_word<T: FromStr>(text: &str) -> Result<(T, &str), T::Err> {
    let (word, rest) = text.split_once(' ').unwrap_or((text, ""));
    Ok((word.parse()?, rest))
}

/// The sheet of an operator and literals, as `write_condition` writes them.
fn read_condition(column_type: Type, transform: Transform, text: &str) -> Result<Sheet, Error> {
    let wrong = || ParseError::new(text, "operator with literals of the column's type");
    let (operator, mut rest) = take_operator(text).ok_or_else(wrong)?;
    let mut sheet = Sheet::new(operator, column_type, transform);
    if operator.is_set() {
        let inside = rest.strip_prefix('(').and_then(|r| r.strip_suffix(')'));
        rest = inside.ok_or_else(wrong)?;
    }
    while !rest.is_empty() {
        let (literal, after) = take_literal(column_type, rest).ok_or_else(wrong)?;
        sheet.push(&literal)?;
        rest = match after.strip_prefix(", ") {
            Some(more) if !more.is_empty() => more,
            None if after.is_empty() => after,
            _ => return Err(wrong().into()),
        };
    }
    if operator.is_binary() && sheet.len() != 1 {
        return Err(wrong().into());
    }
    Ok(sheet)
}

/// The operator at the start of a text, and what comes after the space.
fn take_operator(text: &str) -> Option<(PredicateOperator, &str)> {
    PredicateOperator::ALL.into_iter().find_map(|operator| {
        let rest = text.strip_prefix(&operator.to_string())?;
        match rest.strip_prefix(' ') {
            Some(literals) if !operator.is_unary() => Some((operator, literals)),
            None if rest.is_empty() => Some((operator, "")),
            _ => None,
        }
    })
}
