//! Values: what is tested and transformed.

use crate::record::{content, put_missing, Record, EMPTY};
use crate::routines::transform;
use crate::{Literal, Refusal, Transform, Type, ValueError};

/// What a row has in a column, or a partition in its field: a literal, or nothing.
///
/// ```
/// use weighpick::{Literal, Type, Value};
///
/// let grams = Value::from(Literal::Int(287));
/// let record = grams.to_record(Type::Int)?;
/// assert_eq!(Value::from_record(Type::Int, &record)?, grams);
///
/// assert_eq!(Value::from(None), Value::Missing);
/// assert_eq!(Value::from(Some(Literal::Int(287))), grams);
/// assert_eq!(Value::from(287), grams);
/// assert_eq!(Value::from("ab12"), Value::Present(Literal::string("ab12")));
/// assert_eq!("int 287".parse(), Ok(grams));
/// assert_eq!("missing".parse(), Ok(Value::Missing));
/// # Ok::<(), weighpick::Error>(())
/// ```
#[derive(Clone, Debug, PartialEq, Eq, Hash)]
pub enum Value {
    /// Null.
    Missing,
    /// A value.
    Present(Literal),
}

impl From<Literal> for Value {
    fn from(literal: Literal) -> Value {
        Value::Present(literal)
    }
}

/// None is a missing value.
impl From<Option<Literal>> for Value {
    fn from(literal: Option<Literal>) -> Value {
        literal.map_or(Value::Missing, Value::Present)
    }
}

/// An Int.
impl From<i32> for Value {
    fn from(number: i32) -> Value {
        Value::Present(number.into())
    }
}

/// A Long.
impl From<i64> for Value {
    fn from(number: i64) -> Value {
        Value::Present(number.into())
    }
}

/// A String.
impl From<&str> for Value {
    fn from(text: &str) -> Value {
        Value::Present(text.into())
    }
}

/// A String.
impl From<String> for Value {
    fn from(text: String) -> Value {
        Value::Present(text.into())
    }
}

impl Value {
    /// Its record in a column of a type.
    ///
    /// # Errors
    ///
    /// A value of another type, and one that is too long for a record.
    pub fn to_record(&self, column_type: Type) -> Result<Record, ValueError> {
        let mut record = EMPTY;
        self.put(column_type, &mut record)?;
        Ok(record)
    }

    /// Writes it into an empty record of a column of a type.
    #[inline]
    pub(crate) fn put(&self, column_type: Type, record: &mut Record) -> Result<(), ValueError> {
        match self {
            Value::Missing => put_missing(record),
            Value::Present(literal) => literal.put(column_type, record)?,
        }
        Ok(())
    }

    /// The value in a record of a column of a type.
    ///
    /// # Errors
    ///
    /// [`Refusal::Malformed`] and [`Refusal::NotUtf8`].
    pub fn from_record(column_type: Type, record: &[u8]) -> Result<Value, Refusal> {
        // Identity hands back every value record, and refuses whatever is none.
        transform(Transform::Identity, column_type, record, |whole| {
            Ok(Value::read(column_type, whole))
        })
    }

    /// The value in a record that the library wrote.
    #[inline]
    pub(crate) fn read(column_type: Type, record: &[u8]) -> Value {
        match record.first_chunk().and_then(content) {
            None => Value::Missing,
            Some(content) => Value::Present(
                Literal::from_content(column_type, content)
                    .expect("the library writes contents of the result's type"),
            ),
        }
    }
}
