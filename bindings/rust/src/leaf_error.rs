//! Why a leaf could not be built.

use std::error::Error;
use std::fmt::{self, Display, Formatter};

use crate::record::CONTENT_MAX;
use crate::{PredicateOperator, Type, ValueError};

/// What stands against a leaf, before the library is asked.
///
/// ```
/// use weighpick::sheet::CONTENT_MAX;
/// use weighpick::{Leaf, LeafError, Literal, PredicateOperator, Transform};
///
/// let code = Literal::string("7".repeat(CONTENT_MAX + 1));
/// let refused = Leaf::binary(PredicateOperator::Eq, Transform::Identity, &code);
/// assert_eq!(refused, Err(LeafError::TooLong(CONTENT_MAX + 1)));
/// ```
#[derive(Clone, Copy, Debug, PartialEq, Eq, Hash)]
#[non_exhaustive]
pub enum LeafError {
    /// The operator takes another number of literals than the constructor gives it.
    WrongOperator(PredicateOperator),
    /// A literal of the second type for a column of the first.
    WrongType(Type, Type),
    /// A String or Binary of so many bytes does not fit a record.
    TooLong(usize),
    /// More literals than this, the most there may be.
    TooMany(usize),
}

impl From<ValueError> for LeafError {
    fn from(error: ValueError) -> LeafError {
        match error {
            ValueError::WrongType(column, literal) => LeafError::WrongType(column, literal),
            ValueError::TooLong(bytes) => LeafError::TooLong(bytes),
        }
    }
}

impl Display for LeafError {
    fn fmt(&self, f: &mut Formatter<'_>) -> fmt::Result {
        match self {
            LeafError::WrongOperator(operator) => {
                write!(f, "{operator} takes another number of literals")
            }
            LeafError::WrongType(column, literal) => {
                write!(
                    f,
                    "a literal of type {literal} for a column of type {column}"
                )
            }
            LeafError::TooLong(bytes) => {
                write!(f, "a literal has {bytes} bytes, at most {CONTENT_MAX} fit")
            }
            LeafError::TooMany(most) => write!(f, "more than {most} literals"),
        }
    }
}

impl Error for LeafError {}
