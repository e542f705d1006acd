//! Literals: what leaves and predicates compare with.

use crate::record::{put_content, put_int, put_long, Record, CONTENT_MAX};
use crate::{Refusal, Type, ValueError};

/// A literal of a leaf or predicate, or a present value, with its type.
///
/// Its text is the type and the content, and is read back:
///
/// ```
/// use weighpick::{Literal, Type};
///
/// assert_eq!(Literal::from("ab12").column_type(), Type::String);
/// assert_eq!(Literal::from(300_i64), Literal::Long(300));
/// assert_eq!(Literal::Date(31).to_string(), "date 31");
/// assert_eq!(Literal::from("ab12").to_string(), "string \"ab12\"");
/// assert_eq!("binary 0x00ff".parse(), Ok(Literal::binary([0, 255])));
/// ```
#[derive(Clone, Debug, PartialEq, Eq, Hash)]
pub enum Literal {
    /// 32 bits, signed.
    Int(i32),
    /// 64 bits, signed.
    Long(i64),
    /// Days from 1970-01-01.
    Date(i32),
    /// Microseconds from midnight.
    Time(i64),
    /// Microseconds from 1970-01-01, without a time zone.
    Timestamp(i64),
    /// Microseconds from 1970-01-01, with a time zone.
    Timestamptz(i64),
    /// Nanoseconds from 1970-01-01, without a time zone.
    TimestampNs(i64),
    /// Nanoseconds from 1970-01-01, with a time zone.
    TimestamptzNs(i64),
    /// At most [`CONTENT_MAX`](crate::sheet::CONTENT_MAX) bytes of UTF-8.
    String(String),
    /// At most [`CONTENT_MAX`](crate::sheet::CONTENT_MAX) bytes.
    Binary(Vec<u8>),
}

impl Literal {
    /// A String.
    pub fn string(text: impl Into<String>) -> Literal {
        Literal::String(text.into())
    }

    /// A Binary.
    pub fn binary(bytes: impl Into<Vec<u8>>) -> Literal {
        Literal::Binary(bytes.into())
    }

    /// Its type.
    #[must_use]
    pub fn column_type(&self) -> Type {
        match self {
            Literal::Int(_) => Type::Int,
            Literal::Long(_) => Type::Long,
            Literal::Date(_) => Type::Date,
            Literal::Time(_) => Type::Time,
            Literal::Timestamp(_) => Type::Timestamp,
            Literal::Timestamptz(_) => Type::Timestamptz,
            Literal::TimestampNs(_) => Type::TimestampNs,
            Literal::TimestamptzNs(_) => Type::TimestamptzNs,
            Literal::String(_) => Type::String,
            Literal::Binary(_) => Type::Binary,
        }
    }

    /// Writes it into an empty record of a column of a type.
    #[inline]
    pub(crate) fn put(&self, column_type: Type, record: &mut Record) -> Result<(), ValueError> {
        if self.column_type() != column_type {
            return Err(ValueError::WrongType(column_type, self.column_type()));
        }
        let mut bytes =
            |content: &[u8]| put_content(record, content).ok_or(ValueError::TooLong(content.len()));
        match self {
            Literal::Int(v) | Literal::Date(v) => put_int(record, *v),
            Literal::Long(v)
            | Literal::Time(v)
            | Literal::Timestamp(v)
            | Literal::Timestamptz(v)
            | Literal::TimestampNs(v)
            | Literal::TimestamptzNs(v) => put_long(record, *v),
            Literal::String(text) => bytes(text.as_bytes())?,
            Literal::Binary(content) => bytes(content)?,
        }
        Ok(())
    }

    /// The literal of a type with the content of a record: a number's bytes, the lowest first, or those of a String or Binary. The
    /// crate iceberg's `Datum::to_bytes` gives the same bytes, as file lists have them.
    ///
    /// ```
    /// use weighpick::{Literal, Refusal, Type};
    ///
    /// assert_eq!(Literal::from_content(Type::Int, &[44, 1, 0, 0]), Ok(Literal::Int(300)));
    /// assert_eq!(Literal::from_content(Type::String, b"ab12"), Ok(Literal::from("ab12")));
    /// assert_eq!(Literal::from_content(Type::Long, &[44, 1, 0, 0]), Err(Refusal::Malformed));
    /// ```
    ///
    /// # Errors
    ///
    /// [`Refusal::Malformed`] where the length is not the type's, so that the 4 bytes of an Int are no Long, or above
    /// [`CONTENT_MAX`], and [`Refusal::NotUtf8`]. The library refuses a record with this content so.
    #[inline]
    pub fn from_content(column_type: Type, content: &[u8]) -> Result<Literal, Refusal> {
        let int = || number(content).map(i32::from_le_bytes);
        let long = || number(content).map(i64::from_le_bytes);
        if content.len() > CONTENT_MAX {
            return Err(Refusal::Malformed);
        }
        Ok(match column_type {
            Type::Int => Literal::Int(int()?),
            Type::Long => Literal::Long(long()?),
            Type::Date => Literal::Date(int()?),
            Type::Time => Literal::Time(long()?),
            Type::Timestamp => Literal::Timestamp(long()?),
            Type::Timestamptz => Literal::Timestamptz(long()?),
            Type::TimestampNs => Literal::TimestampNs(long()?),
            Type::TimestamptzNs => Literal::TimestamptzNs(long()?),
            Type::String => {
                Literal::string(std::str::from_utf8(content).map_err(|_| Refusal::NotUtf8)?)
            }
            Type::Binary => Literal::binary(content),
        })
    }
}

/// The bytes of a number, if there are as many.
#[inline]
fn number<const N: usize>(content: &[u8]) -> Result<[u8; N], Refusal> {
    content.try_into().map_err(|_| Refusal::Malformed)
}

/// An Int.
impl From<i32> for Literal {
    fn from(number: i32) -> Literal {
        Literal::Int(number)
    }
}

/// A Long.
impl From<i64> for Literal {
    fn from(number: i64) -> Literal {
        Literal::Long(number)
    }
}

/// A String.
impl From<&str> for Literal {
    fn from(text: &str) -> Literal {
        Literal::string(text)
    }
}

/// A String.
impl From<String> for Literal {
    fn from(text: String) -> Literal {
        Literal::String(text)
    }
}
