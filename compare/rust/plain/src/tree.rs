//! Filters as trees: what `not` makes of one, and what one is answered.

use crate::Refusal;

pub enum Filter<'a> {
    Or(Box<Filter<'a>>, Box<Filter<'a>>),
    And(Box<Filter<'a>>, Box<Filter<'a>>),
    Not(Box<Filter<'a>>),
    Leaf(Leaf<'a>),
}

#[derive(Clone, Copy)]
pub struct Leaf<'a> {
    /// The column's place in the list.
    pub column: usize,
    pub operator: Operator,
    pub literal: Value<'a>,
}

/// A literal, or what a record holds. Strings compare byte by byte, as binaries do.
#[derive(Clone, Copy, PartialEq, PartialOrd)]
pub enum Value<'a> {
    Number(i64),
    String(&'a str),
    Binary(&'a [u8]),
}

#[derive(Clone, Copy)]
pub enum Operator {
    Less,
    LessOrEqual,
    Greater,
    GreaterOrEqual,
    Equal,
    NotEqual,
    StartsWith,
    NotStartsWith,
}

impl Filter<'_> {
    /// The same without `not`: leaves turned to their opposite operators, and `and` swapped with `or`.
    pub fn turned(self, opposite: bool) -> Self {
        match self {
            Filter::Not(filter) => filter.turned(!opposite),
            Filter::Leaf(leaf) if opposite => Filter::Leaf(Leaf { operator: leaf.operator.opposite(), ..leaf }),
            Filter::Leaf(leaf) => Filter::Leaf(leaf),
            Filter::Or(mut a, mut b) => {
                *a = a.turned(opposite);
                *b = b.turned(opposite);
                if opposite { Filter::And(a, b) } else { Filter::Or(a, b) }
            }
            Filter::And(mut a, mut b) => {
                *a = a.turned(opposite);
                *b = b.turned(opposite);
                if opposite { Filter::Or(a, b) } else { Filter::And(a, b) }
            }
        }
    }

    /// What a turned filter is answered: every leaf is asked, and the leftmost refusal is the whole's.
    pub fn answer(&self, ask: &impl Fn(&Leaf) -> Result<bool, Refusal>) -> Result<bool, Refusal> {
        match self {
            Filter::Leaf(leaf) => ask(leaf),
            Filter::Or(a, b) => {
                let (a, b) = (a.answer(ask)?, b.answer(ask)?);
                Ok(a || b)
            }
            Filter::And(a, b) => {
                let (a, b) = (a.answer(ask)?, b.answer(ask)?);
                Ok(a && b)
            }
            Filter::Not(_) => unreachable!("the filter is turned"),
        }
    }
}

impl Operator {
    fn opposite(self) -> Operator {
        match self {
            Operator::Less => Operator::GreaterOrEqual,
            Operator::LessOrEqual => Operator::Greater,
            Operator::Greater => Operator::LessOrEqual,
            Operator::GreaterOrEqual => Operator::Less,
            Operator::Equal => Operator::NotEqual,
            Operator::NotEqual => Operator::Equal,
            Operator::StartsWith => Operator::NotStartsWith,
            Operator::NotStartsWith => Operator::StartsWith,
        }
    }

    /// Whether a value meets the operator with a literal; a missing one counts as different from each.
    pub fn holds(self, value: Option<Value>, literal: Value) -> bool {
        let Some(value) = value else {
            return matches!(self, Operator::NotEqual | Operator::NotStartsWith);
        };
        match self {
            Operator::Less => value < literal,
            Operator::LessOrEqual => value <= literal,
            Operator::Greater => value > literal,
            Operator::GreaterOrEqual => value >= literal,
            Operator::Equal => value == literal,
            Operator::NotEqual => value != literal,
            Operator::StartsWith => value.starts_with(literal),
            Operator::NotStartsWith => !value.starts_with(literal),
        }
    }
}

impl Value<'_> {
    fn starts_with(self, start: Value) -> bool {
        match (self, start) {
            (Value::String(value), Value::String(start)) => value.starts_with(start),
            (Value::Binary(value), Value::Binary(start)) => value.starts_with(start),
            _ => false,
        }
    }
}
