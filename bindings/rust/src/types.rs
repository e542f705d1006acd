//! The ten column types of document 01.

use std::fmt::{self, Display, Formatter};
use std::str::FromStr;

use crate::ParseError;

/// The type of a column, of its literals and of its values.
#[derive(Clone, Copy, Debug, PartialEq, Eq, Hash)]
#[repr(u8)]
pub enum Type {
    /// 32 bits, signed.
    Int = 1,
    /// 64 bits, signed.
    Long = 2,
    /// Days from 1970-01-01.
    Date = 3,
    /// Microseconds from midnight.
    Time = 4,
    /// Microseconds from 1970-01-01, without a time zone.
    Timestamp = 5,
    /// Microseconds from 1970-01-01, with a time zone.
    Timestamptz = 6,
    /// Nanoseconds from 1970-01-01, without a time zone.
    TimestampNs = 7,
    /// Nanoseconds from 1970-01-01, with a time zone.
    TimestamptzNs = 8,
    /// UTF-8.
    String = 9,
    /// Bytes.
    Binary = 10,
}

impl Type {
    /// All types, by number; the first has number 1.
    pub const ALL: [Type; 10] = [
        Type::Int,
        Type::Long,
        Type::Date,
        Type::Time,
        Type::Timestamp,
        Type::Timestamptz,
        Type::TimestampNs,
        Type::TimestamptzNs,
        Type::String,
        Type::Binary,
    ];

    /// Its number in a sheet.
    #[must_use]
    pub fn number(self) -> u8 {
        self as u8
    }

    /// The type with a number of document 01's list.
    #[must_use]
    pub fn from_number(number: u8) -> Option<Type> {
        let before = usize::from(number).checked_sub(1)?;
        Type::ALL.get(before).copied()
    }
}

/// The names of the Iceberg table specification.
impl Display for Type {
    fn fmt(&self, f: &mut Formatter<'_>) -> fmt::Result {
        f.write_str(match self {
            Type::Int => "int",
            Type::Long => "long",
            Type::Date => "date",
            Type::Time => "time",
            Type::Timestamp => "timestamp",
            Type::Timestamptz => "timestamptz",
            Type::TimestampNs => "timestamp_ns",
            Type::TimestamptzNs => "timestamptz_ns",
            Type::String => "string",
            Type::Binary => "binary",
        })
    }
}

/// Reads what [`Display`] writes.
impl FromStr for Type {
    type Err = ParseError;

    fn from_str(text: &str) -> Result<Type, ParseError> {
        let named = Type::ALL.into_iter().find(|t| t.to_string() == text);
        named.ok_or_else(|| ParseError::new(text, "type"))
    }
}
