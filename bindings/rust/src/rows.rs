//! The values beside a column list: those of a row, or the partition values of a file.

use std::fmt::{self, Debug, Formatter};

use crate::columns::COLUMNS_MAX;
use crate::record::{put_missing, Record, EMPTY, RECORD_SIZE};
use crate::routines::{filter_project, filter_row};
use crate::{Columns, Refusal, RowError, Type, Value};

/// The types of the values beside a column list, in its order; none behind the last column.
pub(crate) type Types = [Option<Type>; COLUMNS_MAX];

/// The records of the values beside a column list, and zeros behind the last column's. They lie in place, so that a row needs no
/// memory from the heap.
type Records = [u8; RECORD_SIZE * COLUMNS_MAX];

/// A routine of filters: what it says of a column list, a text and values.
type Routine = fn(&[u8], &[u8], &[u8]) -> Result<bool, Refusal>;

/// A row of a column list, made by [`Columns::row`].
#[derive(Clone, PartialEq, Eq, Hash)]
pub struct Row(Values);

/// The partition values of a file, made by [`Columns::partition`].
#[derive(Clone, PartialEq, Eq, Hash)]
pub struct Partition(Values);

impl Row {
    /// The row of the columns of a list.
    #[inline]
    pub(crate) fn new<'a>(
        columns: &Columns,
        values: impl IntoIterator<Item = &'a Value>,
    ) -> Result<Row, RowError> {
        Values::new(columns, columns.row_types(), values).map(Row)
    }

    /// Reads a row of a column list, as [`as_bytes`](Row::as_bytes) gives it or as another program wrote it.
    ///
    /// ```
    /// use weighpick::{Columns, Refusal, Row, Transform, Type};
    ///
    /// let columns = Columns::new([("lot", Type::String, Transform::Truncate(4)), ("grams", Type::Int, Transform::Void)])?;
    /// let row = columns.row(&["ab12x".into(), 501.into()])?;
    /// assert_eq!(Row::from_bytes(&columns, row.as_bytes())?, row);
    /// assert_eq!(Row::from_bytes(&columns, &[]), Err(Refusal::Malformed));
    /// # Ok::<(), weighpick::Error>(())
    /// ```
    ///
    /// # Errors
    ///
    /// [`Refusal::Malformed`] where there is not one record a column, or one is no value of its column's type, and
    /// [`Refusal::NotUtf8`]. An Int and a Date, which have the same bytes, are not told apart.
    pub fn from_bytes(columns: &Columns, bytes: &[u8]) -> Result<Row, Refusal> {
        Values::read(columns, columns.row_types(), bytes, filter_row).map(Row)
    }

    /// Its records, as the routines of [`filter`](crate::filter) take them.
    #[must_use]
    pub fn as_bytes(&self) -> &[u8] {
        self.0.as_bytes()
    }

    /// Its records, if it is a row of these columns.
    #[inline]
    pub(crate) fn of(&self, columns: &Columns) -> Result<&[u8], Refusal> {
        self.0.in_types(columns.row_types())
    }
}

impl Partition {
    /// The partition values of the columns of a list.
    #[inline]
    pub(crate) fn new<'a>(
        columns: &Columns,
        values: impl IntoIterator<Item = &'a Value>,
    ) -> Result<Partition, RowError> {
        Values::new(columns, columns.partition_types(), values).map(Partition)
    }

    /// Reads the partition values of a file, as [`as_bytes`](Partition::as_bytes) gives them or as another program wrote them. Their
    /// types are those that [`Columns::partition`] asks for.
    ///
    /// # Errors
    ///
    /// As for [`Row::from_bytes`].
    pub fn from_bytes(columns: &Columns, bytes: &[u8]) -> Result<Partition, Refusal> {
        Values::read(columns, columns.partition_types(), bytes, filter_project).map(Partition)
    }

    /// Their records, as the routines of [`filter`](crate::filter) take them.
    #[must_use]
    pub fn as_bytes(&self) -> &[u8] {
        self.0.as_bytes()
    }

    /// Their records, if they are partition values of these columns.
    #[inline]
    pub(crate) fn of(&self, columns: &Columns) -> Result<&[u8], Refusal> {
        self.0.in_types(columns.partition_types())
    }
}

impl Debug for Row {
    fn fmt(&self, f: &mut Formatter<'_>) -> fmt::Result {
        f.debug_tuple("Row").field(&self.0).finish()
    }
}

impl Debug for Partition {
    fn fmt(&self, f: &mut Formatter<'_>) -> fmt::Result {
        f.debug_tuple("Partition").field(&self.0).finish()
    }
}

/// One value a column: their types and their records.
#[derive(Clone, PartialEq, Eq, Hash)]
struct Values {
    types: Types,
    records: Records,
}

impl Values {
    /// The values of the columns of a list, in these types.
    #[inline]
    fn new<'a>(
        columns: &Columns,
        types: &Types,
        values: impl IntoIterator<Item = &'a Value>,
    ) -> Result<Values, RowError> {
        let expected = columns.iter().len();
        let wrong_count = |found| RowError::WrongCount { expected, found };
        let mut values = values.into_iter();
        let mut records = [0; RECORD_SIZE * COLUMNS_MAX];
        let places = records
            .chunks_exact_mut(RECORD_SIZE)
            .zip(types.iter().flatten());
        for (before, (place, value_type)) in places.enumerate() {
            let value = values.next().ok_or(wrong_count(before))?;
            let record: &mut Record = place.first_chunk_mut().expect("room for a record");
            value.put(*value_type, record).map_err(|error| {
                let column = columns.iter().nth(before);
                let (name, ..) = column.expect("a column for each type");
                RowError::Value(name.to_string(), error)
            })?;
        }
        match values.count() {
            0 => Ok(Values {
                types: *types,
                records,
            }),
            more => Err(wrong_count(expected + more)),
        }
    }

    /// The values in some bytes, in these types, which are those that a routine asks for.
    fn read(
        columns: &Columns,
        types: &Types,
        bytes: &[u8],
        routine: Routine,
    ) -> Result<Values, Refusal> {
        // The library reads list and values whole before it looks at the text, and an empty text is no filter.
        match routine(columns.as_bytes(), &[], bytes) {
            Err(Refusal::OutsideGrammar) => {
                let mut records = [0; RECORD_SIZE * COLUMNS_MAX];
                records[..bytes.len()].copy_from_slice(bytes);
                Ok(Values {
                    types: *types,
                    records,
                })
            }
            Err(refusal) => Err(refusal),
            Ok(_) => unreachable!("an empty text is no filter"),
        }
    }

    fn as_bytes(&self) -> &[u8] {
        let count = self.types.iter().flatten().count();
        &self.records[..RECORD_SIZE * count]
    }

    /// The records, if they are of these types. It is asked here, since the library goes by the bytes, and those of an Int and of a
    /// Date are of one form.
    #[inline]
    fn in_types(&self, types: &Types) -> Result<&[u8], Refusal> {
        if self.types != *types {
            return Err(Refusal::Malformed);
        }
        Ok(self.as_bytes())
    }
}

impl Debug for Values {
    fn fmt(&self, f: &mut Formatter<'_>) -> fmt::Result {
        let values = self.as_bytes().chunks_exact(RECORD_SIZE);
        let values = values.zip(self.types.iter().flatten());
        let values = values.map(|(record, value_type)| Value::read(*value_type, record));
        f.debug_list().entries(values).finish()
    }
}

/// A missing value, which is of every type, for each column that a list may have.
pub(crate) fn missing_records() -> Records {
    let mut missing = EMPTY;
    put_missing(&mut missing);
    let mut records = [0; RECORD_SIZE * COLUMNS_MAX];
    let places = records.chunks_exact_mut(RECORD_SIZE);
    places.for_each(|place| place.copy_from_slice(&missing));
    records
}
