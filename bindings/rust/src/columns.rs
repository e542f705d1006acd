//! Column lists: the columns that a filter can name, and how the table is split by each.

use std::fmt::{self, Debug, Formatter};

use crate::record::{self, column_head, Record, RECORD_SIZE};
use crate::routines::filter_row;
use crate::rows::{missing_records, Partition, Row, Types};
use crate::{ColumnError, Refusal, RowError, Transform, Type, Value};

/// The bytes of a column's name in a list, with the zeros behind it.
pub const NAME_SIZE: usize = 16;

/// The bytes of an entry of a column list: a name and a head.
pub const COLUMN_SIZE: usize = NAME_SIZE + RECORD_SIZE;

/// The most columns of a list.
pub const COLUMNS_MAX: usize = 8;

/// The words of filters, which no column has for a name.
const RESERVED: [&str; 4] = ["and", "or", "not", "startswith"];

/// The columns that a [`Filter`](crate::Filter) can name: each has a name, a type, and the transform that splits the table by it.
///
/// A name is 1 to [`NAME_SIZE`] of the letters a to z, none of the words `and`, `or`, `not` and `startswith`, and no other
/// column's. A list has 1 to [`COLUMNS_MAX`] columns, and is kept as its bytes. A column that the table is not split by has
/// [`Transform::Void`], and missing partition values: its leaves pass no file over.
///
/// ```
/// use weighpick::{ColumnError, Columns, Transform, Type};
///
/// let lot = ("lot", Type::String, Transform::Truncate(4));
/// let columns = Columns::new([lot, ("grams", Type::Int, Transform::Truncate(10))])?;
/// assert!(columns.iter().map(|(name, ..)| name).eq(["lot", "grams"]));
///
/// assert_eq!(Columns::new([lot, lot]), Err(ColumnError::Twice("lot".to_string())));
/// # Ok::<(), weighpick::Error>(())
/// ```
#[derive(Clone, PartialEq, Eq, Hash)]
pub struct Columns {
    bytes: Vec<u8>,
    row_types: Types,
    partition_types: Types,
}

impl Columns {
    /// A list of columns, each a name, a type and a transform.
    ///
    /// # Errors
    ///
    /// By the first column that is against a list's rules, or [`ColumnError::NoColumn`].
    pub fn new<'a>(
        columns: impl IntoIterator<Item = (&'a str, Type, Transform)>,
    ) -> Result<Columns, ColumnError> {
        let mut bytes = Vec::new();
        for (name, column_type, transform) in columns {
            let name = checked_name(name)?;
            if bytes.len() == COLUMN_SIZE * COLUMNS_MAX {
                return Err(ColumnError::TooMany(COLUMNS_MAX));
            }
            if entries(&bytes).any(|(other, ..)| other == name) {
                return Err(ColumnError::Twice(name.to_string()));
            }
            let mut entry = [0; COLUMN_SIZE];
            entry[..name.len()].copy_from_slice(name.as_bytes());
            entry[NAME_SIZE..].copy_from_slice(&column_head(column_type, transform));
            bytes.extend_from_slice(&entry);
        }
        if bytes.is_empty() {
            return Err(ColumnError::NoColumn);
        }
        Ok(Columns::checked(bytes))
    }

    /// Reads a column list, as [`as_bytes`](Columns::as_bytes) gives it or as another program wrote it.
    ///
    /// # Errors
    ///
    /// [`Refusal::Malformed`].
    pub fn from_bytes(bytes: &[u8]) -> Result<Columns, Refusal> {
        // The library reads list and values whole before it looks at the text, and an empty text is no filter.
        let count = (bytes.len() / COLUMN_SIZE).min(COLUMNS_MAX);
        let values = &missing_records()[..RECORD_SIZE * count];
        match filter_row(bytes, &[], values) {
            Err(Refusal::OutsideGrammar) => Ok(Columns::checked(bytes.to_vec())),
            _ => Err(Refusal::Malformed),
        }
    }

    /// The list of bytes that are one.
    fn checked(bytes: Vec<u8>) -> Columns {
        let (mut row_types, mut partition_types) = ([None; COLUMNS_MAX], [None; COLUMNS_MAX]);
        for (place, (_, column_type, transform)) in entries(&bytes).enumerate() {
            row_types[place] = Some(column_type);
            partition_types[place] = Some(transform.partition_type(column_type));
        }
        Columns {
            bytes,
            row_types,
            partition_types,
        }
    }

    /// Its bytes, as the routines of [`filter`](crate::filter) take them.
    #[must_use]
    pub fn as_bytes(&self) -> &[u8] {
        &self.bytes
    }

    /// Its columns: name, type and transform.
    #[must_use]
    pub fn iter(&self) -> impl ExactSizeIterator<Item = (&str, Type, Transform)> + '_ {
        entries(&self.bytes)
    }

    /// A row: one value a column, in the list's order, each of its column's type or missing.
    ///
    /// ```
    /// use weighpick::{Columns, Literal, Transform, Type, Value};
    ///
    /// let columns = Columns::new([("lot", Type::String, Transform::Truncate(4)), ("day", Type::Date, Transform::Month)])?;
    /// assert!(columns.row(&["ab12".into(), Literal::Date(31).into()]).is_ok());
    /// assert!(columns.row(&[Value::Missing, Value::Missing]).is_ok());
    /// # Ok::<(), weighpick::Error>(())
    /// ```
    ///
    /// # Errors
    ///
    /// [`RowError::WrongCount`], or [`RowError::Value`] of the first value that is none of its column.
    pub fn row<'a>(&self, values: impl IntoIterator<Item = &'a Value>) -> Result<Row, RowError> {
        Row::new(self, values)
    }

    /// The partition values of a file: one value a column, in the list's order, each of its transform's result type or missing.
    ///
    /// Where the transform has no result type for the column, the value has the column's; under
    /// [`Transform::Unknown`] it is a String. It is looked at for its form alone: a filter that names such a column is refused.
    ///
    /// ```
    /// use weighpick::{Columns, Literal, Transform, Type, Value};
    ///
    /// let columns = Columns::new([("lot", Type::String, Transform::Truncate(4)), ("day", Type::Date, Transform::Month)])?;
    /// // February 1970
    /// assert!(columns.partition(&["ab12".into(), Literal::Int(1).into()]).is_ok());
    /// # Ok::<(), weighpick::Error>(())
    /// ```
    ///
    /// # Errors
    ///
    /// As for [`row`](Columns::row).
    pub fn partition<'a>(
        &self,
        values: impl IntoIterator<Item = &'a Value>,
    ) -> Result<Partition, RowError> {
        Partition::new(self, values)
    }

    /// The types of a row's values.
    pub(crate) fn row_types(&self) -> &Types {
        &self.row_types
    }

    /// The types of a file's partition values.
    pub(crate) fn partition_types(&self) -> &Types {
        &self.partition_types
    }
}

/// The name, if it is one.
fn checked_name(name: &str) -> Result<&str, ColumnError> {
    let wrong = if name.is_empty() {
        return Err(ColumnError::NoName);
    } else if !name.bytes().all(|letter| letter.is_ascii_lowercase()) {
        ColumnError::NotLowerCase
    } else if name.len() > NAME_SIZE {
        ColumnError::TooLong
    } else if RESERVED.contains(&name) {
        ColumnError::Reserved
    } else {
        return Ok(name);
    };
    Err(wrong(name.to_string()))
}

/// The columns of bytes that are a list.
fn entries(bytes: &[u8]) -> impl ExactSizeIterator<Item = (&str, Type, Transform)> {
    bytes.chunks_exact(COLUMN_SIZE).map(|entry| {
        let (name, head) = entry.split_at(NAME_SIZE);
        let letters = name.iter().position(|&byte| byte == 0).unwrap_or(NAME_SIZE);
        let name = std::str::from_utf8(&name[..letters]).expect("a name is of letters");
        let head: &Record = head.first_chunk().expect("an entry has a head");
        let column_type = record::column_type(head).expect("every type of a list is listed");
        let transform = record::transform(head).expect("every transform of a list is listed");
        (name, column_type, transform)
    })
}

impl Debug for Columns {
    fn fmt(&self, f: &mut Formatter<'_>) -> fmt::Result {
        f.debug_list().entries(self.iter()).finish()
    }
}
