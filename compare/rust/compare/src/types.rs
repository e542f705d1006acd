//! The ten column types as document 01 has them: which are numbers, their ranges, contents as numbers and back, and
//! how many of a timestamp's units make a second.

use std::ops::RangeInclusive;

use beside::leaf::{column, content_length, transform};

/// The calendar's first and last day, counted from 1970-01-01.
pub const FIRST_DAY: i64 = -96_465_292;
pub const LAST_DAY: i64 = 95_026_236;

pub const SECONDS_PER_HOUR: i64 = 3_600;
pub const SECONDS_PER_DAY: i64 = 86_400;
const MICROS_PER_SECOND: i64 = 1_000_000;
const NANOS_PER_SECOND: i64 = 1_000_000_000;

/// Whether a type's values are numbers: whole numbers and times, types 1 to 8.
pub fn is_number(column: u8) -> bool {
    content_length(column).is_some()
}

/// The numbers that a type of 4 or 8 bytes can hold.
pub fn range(column: u8) -> RangeInclusive<i64> {
    match column {
        column::INT | column::DATE => i32::MIN.into()..=i32::MAX.into(),
        _ => i64::MIN..=i64::MAX,
    }
}

/// The units in a second of a timestamp type; none for the other types.
pub fn per_second(column: u8) -> Option<i64> {
    match column {
        column::TIMESTAMP | column::TIMESTAMPTZ => Some(MICROS_PER_SECOND),
        column::TIMESTAMP_NS | column::TIMESTAMPTZ_NS => Some(NANOS_PER_SECOND),
        _ => None,
    }
}

/// Whether literals are transformed under a pair: it has a result type, and is none of Identity, Void and Unknown.
pub fn is_transformed(column: u8, transform: u8) -> bool {
    let is_timestamp = per_second(column).is_some();
    match transform {
        transform::TRUNCATE => matches!(column, column::INT | column::LONG | column::STRING | column::BINARY),
        transform::YEAR | transform::MONTH | transform::DAY => is_timestamp || column == column::DATE,
        transform::HOUR => is_timestamp,
        _ => false,
    }
}

/// The content of a number: the low bytes of its two's complement, as many as the type has.
pub fn content(column: u8, number: i64) -> Vec<u8> {
    let length = content_length(column).unwrap_or(size_of::<i64>());
    number.to_le_bytes()[..length].to_vec()
}

/// The number of a content of a type from 1 to 8: its bytes, continued by the sign.
pub fn number(content: &[u8]) -> i64 {
    let negative = content.last().is_some_and(|byte| *byte >= 0x80);
    let mut bytes = if negative { [0xff; size_of::<i64>()] } else { [0; size_of::<i64>()] };
    bytes[..content.len()].copy_from_slice(content);
    i64::from_le_bytes(bytes)
}
