//! One error for all that can go wrong here.

use std::fmt::{self, Display, Formatter};

use crate::{ColumnError, LeafError, ParseError, Refusal, RowError, ValueError};

/// Any error of this crate, for functions that build leaves, ask the library and hand on what goes wrong with `?`.
///
/// Not every error should end a query: after a refusal of a projection every file is read, which is what
/// [`Leaf::picker`](crate::Leaf::picker) and [`Filter::pick`](crate::Filter::pick) do.
///
/// ```
/// use weighpick::{Error, Leaf, Literal, PredicateOperator, Refusal, Transform, Value};
///
/// /// The step of 10 grams that a weighing lies in, and the leaf that asks for its like.
/// fn like(weighing: Literal) -> Result<(Value, Leaf), Error> {
///     let steps = Transform::Truncate(10);
///     let leaf = Leaf::binary(PredicateOperator::Eq, steps, &weighing)?;
///     let step = steps.transform_literal(leaf.column_type(), &weighing.into())?;
///     Ok((step, leaf))
/// }
///
/// assert!(like(Literal::Int(287)).is_ok());
/// assert_eq!(like(Literal::Int(i32::MIN)), Err(Error::Refused(Refusal::Overflow)));
/// ```
#[derive(Clone, Debug, PartialEq, Eq, Hash)]
#[non_exhaustive]
pub enum Error {
    /// A leaf could not be built.
    Leaf(LeafError),
    /// A value is none of the column.
    Value(ValueError),
    /// A column list could not be built.
    Column(ColumnError),
    /// Values are no row, and no partition values, of a column list.
    Row(RowError),
    /// The library refused.
    Refused(Refusal),
    /// A text could not be read.
    Text(ParseError),
}

impl From<LeafError> for Error {
    fn from(error: LeafError) -> Error {
        Error::Leaf(error)
    }
}

impl From<ValueError> for Error {
    fn from(error: ValueError) -> Error {
        Error::Value(error)
    }
}

impl From<ColumnError> for Error {
    fn from(error: ColumnError) -> Error {
        Error::Column(error)
    }
}

impl From<RowError> for Error {
    fn from(error: RowError) -> Error {
        Error::Row(error)
    }
}

impl From<Refusal> for Error {
    fn from(refusal: Refusal) -> Error {
        Error::Refused(refusal)
    }
}

impl From<ParseError> for Error {
    fn from(error: ParseError) -> Error {
        Error::Text(error)
    }
}

/// The words of the error that it is.
impl Display for Error {
    fn fmt(&self, f: &mut Formatter<'_>) -> fmt::Result {
        match self {
            Error::Leaf(error) => error.fmt(f),
            Error::Value(error) => error.fmt(f),
            Error::Column(error) => error.fmt(f),
            Error::Row(error) => error.fmt(f),
            Error::Refused(refusal) => refusal.fmt(f),
            Error::Text(error) => error.fmt(f),
        }
    }
}

// No source: the words are the inner error's already.
impl std::error::Error for Error {}
