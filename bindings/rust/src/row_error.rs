//! Why values do not stand beside a column list.

use std::error::Error;
use std::fmt::{self, Display, Formatter};

use crate::ValueError;

/// Values that are no row of a column list, or no partition values of one. The library was not asked.
///
/// ```
/// use weighpick::{Columns, Literal, RowError, Transform, Type, ValueError};
///
/// let columns = Columns::new([("lot", Type::String, Transform::Identity), ("day", Type::Date, Transform::Month)])?;
/// let row = columns.row(&["ab12".into()]);
/// assert_eq!(row, Err(RowError::WrongCount { expected: 2, found: 1 }));
///
/// // A month is an Int.
/// let partition = columns.partition(&["ab12".into(), Literal::Date(31).into()]);
/// let wrong = ValueError::WrongType(Type::Int, Type::Date);
/// assert_eq!(partition, Err(RowError::Value("day".to_string(), wrong)));
/// # Ok::<(), weighpick::Error>(())
/// ```
#[derive(Clone, Debug, PartialEq, Eq, Hash)]
#[non_exhaustive]
pub enum RowError {
    /// Another number of values than of columns.
    WrongCount {
        /// How many columns there are.
        expected: usize,
        /// How many values there were.
        found: usize,
    },
    /// The value of the column with this name is none of it.
    Value(String, ValueError),
}

impl Display for RowError {
    fn fmt(&self, f: &mut Formatter<'_>) -> fmt::Result {
        match self {
            RowError::WrongCount { expected, found } => {
                write!(
                    f,
                    "{expected} values are asked for, one a column, and not {found}"
                )
            }
            RowError::Value(name, error) => write!(f, "`{name}`: {error}"),
        }
    }
}

impl Error for RowError {}
