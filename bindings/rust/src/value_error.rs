//! Why a value is none of a column.

use std::error::Error;
use std::fmt::{self, Display, Formatter};

use crate::record::CONTENT_MAX;
use crate::Type;

/// A value that a column, or the partition values of a table, cannot have. The library was not asked.
///
/// ```
/// use weighpick::{Leaf, Literal, PredicateOperator, Transform, Type, ValueError};
///
/// let leaf = Leaf::binary(PredicateOperator::Eq, Transform::Month, &Literal::Date(31))?;
/// let read = leaf.project()?.expect("Eq has an inclusive projection");
/// // A month is an Int.
/// let refused = read.holds(&Literal::Date(31).into());
/// assert_eq!(refused, Err(ValueError::WrongType(Type::Int, Type::Date)));
/// # Ok::<(), weighpick::Error>(())
/// ```
#[derive(Clone, Copy, Debug, PartialEq, Eq, Hash)]
#[non_exhaustive]
pub enum ValueError {
    /// A value of the second type where one of the first is asked for.
    WrongType(Type, Type),
    /// A String or Binary of so many bytes does not fit a record.
    TooLong(usize),
}

impl Display for ValueError {
    fn fmt(&self, f: &mut Formatter<'_>) -> fmt::Result {
        match self {
            ValueError::WrongType(column, value) => {
                write!(f, "a value of type {value} for a column of type {column}")
            }
            ValueError::TooLong(bytes) => {
                write!(f, "a value has {bytes} bytes, at most {CONTENT_MAX} fit")
            }
        }
    }
}

impl Error for ValueError {}
