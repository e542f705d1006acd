//! Why a column list could not be built.

use std::error::Error;
use std::fmt::{self, Display, Formatter};

use crate::columns::NAME_SIZE;

/// What stands against a column list, before the library is asked.
///
/// ```
/// use weighpick::{ColumnError, Columns, Transform, Type};
///
/// let refused = Columns::new([("Grams", Type::Int, Transform::Identity)]);
/// assert_eq!(refused, Err(ColumnError::NotLowerCase("Grams".to_string())));
/// ```
#[derive(Clone, Debug, PartialEq, Eq, Hash)]
#[non_exhaustive]
pub enum ColumnError {
    /// No column at all.
    NoColumn,
    /// More columns than this, the most there may be.
    TooMany(usize),
    /// A name without a letter.
    NoName,
    /// A name with something else in it than the letters a to z.
    NotLowerCase(String),
    /// A name of more than [`NAME_SIZE`](crate::filter::NAME_SIZE) letters.
    TooLong(String),
    /// A name that is a word of filters: and, or, not, startswith.
    Reserved(String),
    /// A name that two columns have.
    Twice(String),
}

impl Display for ColumnError {
    fn fmt(&self, f: &mut Formatter<'_>) -> fmt::Result {
        match self {
            ColumnError::NoColumn => write!(f, "a column list has one column or more"),
            ColumnError::TooMany(most) => write!(f, "more than {most} columns"),
            ColumnError::NoName => write!(f, "a column has no name"),
            ColumnError::NotLowerCase(name) => {
                write!(f, "`{name}` is no name: it has more than letters a to z")
            }
            ColumnError::TooLong(name) => {
                write!(f, "`{name}` is no name: at most {NAME_SIZE} letters fit")
            }
            ColumnError::Reserved(name) => write!(f, "`{name}` is no name: filters use the word"),
            ColumnError::Twice(name) => write!(f, "two columns have the name `{name}`"),
        }
    }
}

impl Error for ColumnError {}
