//! The transforms that split tables, and the transform of one value.

use std::fmt::{self, Display, Formatter};
use std::str::FromStr;

use crate::record::EMPTY;
use crate::routines::transform;
use crate::{Error, ParseError, Refusal, Type, Value};

/// How a column's value becomes a partition value.
#[derive(Clone, Copy, Debug, PartialEq, Eq, Hash)]
#[non_exhaustive]
pub enum Transform {
    /// The value itself.
    Identity,
    /// A number's step of this width; so many first code points of a string, or first bytes of a binary.
    Truncate(u32),
    /// Years from 1970.
    Year,
    /// Months from January 1970.
    Month,
    /// Days from 1970-01-01.
    Day,
    /// Hours from 1970-01-01.
    Hour,
    /// Nothing: every partition value is missing.
    Void,
    /// A transform that this version does not know.
    Unknown,
}

/// All but Truncate.
const WITHOUT_WIDTH: [Transform; 7] = [
    Transform::Identity,
    Transform::Year,
    Transform::Month,
    Transform::Day,
    Transform::Hour,
    Transform::Void,
    Transform::Unknown,
];

impl Transform {
    /// Its number in a sheet.
    #[must_use]
    pub fn number(self) -> u8 {
        match self {
            Transform::Identity => 0,
            Transform::Truncate(_) => 1,
            Transform::Year => 2,
            Transform::Month => 3,
            Transform::Day => 4,
            Transform::Hour => 5,
            Transform::Void => 6,
            Transform::Unknown => 7,
        }
    }

    /// Its width in a sheet; 0 unless it is Truncate.
    #[must_use]
    pub fn width(self) -> u32 {
        match self {
            Transform::Truncate(width) => width,
            _ => 0,
        }
    }

    /// The transform with a number of document 01's list and a width.
    #[must_use]
    pub fn from_numbers(number: u8, width: u32) -> Option<Transform> {
        let found = match number {
            0 => Transform::Identity,
            1 => Transform::Truncate(width),
            2 => Transform::Year,
            3 => Transform::Month,
            4 => Transform::Day,
            5 => Transform::Hour,
            6 => Transform::Void,
            7 => Transform::Unknown,
            _ => return None,
        };
        (found.width() == width).then_some(found)
    }

    /// The type of its partition values.
    ///
    /// ```
    /// use weighpick::{Transform, Type};
    ///
    /// assert_eq!(Transform::Day.result_type(Type::Timestamp), Ok(Type::Date));
    /// ```
    ///
    /// # Errors
    ///
    /// [`Refusal::NoResultType`] where the pair has none, and [`Refusal::FeatureUnsupported`] of Unknown.
    pub fn result_type(self, column_type: Type) -> Result<Type, Refusal> {
        use Type::*;
        let timestamp = matches!(
            column_type,
            Timestamp | Timestamptz | TimestampNs | TimestamptzNs
        );
        let calendar = timestamp || column_type == Date;
        match self {
            Transform::Identity | Transform::Void => Ok(column_type),
            Transform::Unknown => Err(Refusal::FeatureUnsupported),
            Transform::Truncate(_) if matches!(column_type, Int | Long | String | Binary) => {
                Ok(column_type)
            }
            Transform::Year | Transform::Month if calendar => Ok(Int),
            Transform::Day if calendar => Ok(Date),
            Transform::Hour if timestamp => Ok(Int),
            _ => Err(Refusal::NoResultType),
        }
    }

    /// The type that a filter takes a column's partition values in: the result type, else the column's. Unknown's is String, as in
    /// the crate iceberg.
    pub(crate) fn partition_type(self, column_type: Type) -> Type {
        match self {
            Transform::Unknown => Type::String,
            _ => self.result_type(column_type).unwrap_or(column_type),
        }
    }

    /// The partition value of a value in a column of a type.
    ///
    /// ```
    /// use weighpick::{Literal, Transform, Type};
    ///
    /// // One second before 1969-12-31 began.
    /// let moment = Literal::Timestamp(-86_401_000_000).into();
    /// let day = Transform::Day.transform_literal(Type::Timestamp, &moment)?;
    /// assert_eq!(day, Literal::Date(-2).into());
    /// # Ok::<(), weighpick::Error>(())
    /// ```
    ///
    /// # Errors
    ///
    /// A [`ValueError`](crate::ValueError) where the value is none of the column, and a [`Refusal`] where it has no partition value.
    pub fn transform_literal(self, column_type: Type, value: &Value) -> Result<Value, Error> {
        let mut record = EMPTY;
        value.put(column_type, &mut record)?;
        let result_type = self.result_type(column_type);
        transform(self, column_type, &record, |partition| {
            Ok(Value::read(result_type?, partition))
        })
    }
}

/// The names of the Iceberg table specification.
impl Display for Transform {
    fn fmt(&self, f: &mut Formatter<'_>) -> fmt::Result {
        match self {
            Transform::Identity => f.write_str("identity"),
            Transform::Truncate(width) => write!(f, "truncate[{width}]"),
            Transform::Year => f.write_str("year"),
            Transform::Month => f.write_str("month"),
            Transform::Day => f.write_str("day"),
            Transform::Hour => f.write_str("hour"),
            Transform::Void => f.write_str("void"),
            Transform::Unknown => f.write_str("unknown"),
        }
    }
}

/// Reads what [`Display`] writes.
impl FromStr for Transform {
    type Err = ParseError;

    fn from_str(text: &str) -> Result<Transform, ParseError> {
        let truncate = text
            .strip_prefix("truncate[")
            .and_then(|t| t.strip_suffix(']'));
        if let Some(Ok(width)) = truncate.map(str::parse) {
            return Ok(Transform::Truncate(width));
        }
        let named = WITHOUT_WIDTH.into_iter().find(|t| t.to_string() == text);
        named.ok_or_else(|| ParseError::new(text, "transform"))
    }
}
