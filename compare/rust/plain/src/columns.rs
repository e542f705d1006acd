//! Column lists: names, types and transforms.

use sheets::filter::{COLUMNS, ENTRY, NAME, RESERVED};
use sheets::leaf;
use sheets::sheet::{COLUMN, NEXT, OPERATOR, TRANSFORM, WIDTH};

use crate::Refusal;

#[derive(Clone, Copy, PartialEq, Eq)]
pub enum Type {
    Int,
    Long,
    Date,
    Time,
    Timestamp,
    Timestamptz,
    TimestampNs,
    TimestamptzNs,
    String,
    Binary,
}

#[derive(Clone, Copy, PartialEq, Eq)]
pub enum Transform {
    Identity,
    Truncate(u32),
    Year,
    Month,
    Day,
    Hour,
    Void,
    Unknown,
}

pub struct Column<'a> {
    pub name: &'a [u8],
    pub column: Type,
    pub transform: Transform,
}

impl Column<'_> {
    /// The type of the column's partition values; none where the transform does not go with the column's type.
    pub fn result_type(&self) -> Option<Type> {
        use Type::*;
        let column = self.column;
        let is_moment = matches!(column, Timestamp | Timestamptz | TimestampNs | TimestamptzNs);
        match self.transform {
            Transform::Identity | Transform::Void => Some(column),
            Transform::Unknown => Some(String),
            Transform::Truncate(_) => matches!(column, Int | Long | String | Binary).then_some(column),
            Transform::Year | Transform::Month => (is_moment || column == Date).then_some(Int),
            Transform::Day => (is_moment || column == Date).then_some(Date),
            Transform::Hour => is_moment.then_some(Int),
        }
    }
}

/// The columns of a list.
pub fn read(list: &[u8]) -> Result<Vec<Column<'_>>, Refusal> {
    let (entries, rest) = list.as_chunks::<ENTRY>();
    if !rest.is_empty() || !(1..=COLUMNS).contains(&entries.len()) {
        return Err(Refusal::Malformed);
    }
    let mut columns: Vec<Column> = Vec::with_capacity(entries.len());
    for entry in entries {
        let column = read_column(entry).ok_or(Refusal::Malformed)?;
        if columns.iter().any(|before| before.name == column.name) {
            return Err(Refusal::Malformed);
        }
        columns.push(column);
    }
    Ok(columns)
}

fn read_column(entry: &[u8; ENTRY]) -> Option<Column<'_>> {
    let (name, head) = entry.split_at(NAME);
    let length = name.iter().position(|byte| !byte.is_ascii_lowercase()).unwrap_or(NAME);
    let (name, filling) = name.split_at(length);
    if name.is_empty() || !is_zero(filling) || RESERVED.iter().any(|word| word.as_bytes() == name) {
        return None;
    }
    let is_plain = is_zero(&head[NEXT..COLUMN]) && leaf::RESERVED.into_iter().all(|range| is_zero(&head[range]));
    if !is_plain {
        return None;
    }
    let width = u32::from_le_bytes(head[WIDTH..WIDTH + 4].try_into().ok()?);
    let transform = read_transform(head[TRANSFORM], width)?;
    Some(Column { name, column: read_type(head[COLUMN])?, transform })
}

fn read_type(number: u8) -> Option<Type> {
    Some(match number {
        leaf::column::INT => Type::Int,
        leaf::column::LONG => Type::Long,
        leaf::column::DATE => Type::Date,
        leaf::column::TIME => Type::Time,
        leaf::column::TIMESTAMP => Type::Timestamp,
        leaf::column::TIMESTAMPTZ => Type::Timestamptz,
        leaf::column::TIMESTAMP_NS => Type::TimestampNs,
        leaf::column::TIMESTAMPTZ_NS => Type::TimestamptzNs,
        leaf::column::STRING => Type::String,
        leaf::column::BINARY => Type::Binary,
        _ => return None,
    })
}

fn read_transform(number: u8, width: u32) -> Option<Transform> {
    let transform = match number {
        leaf::transform::TRUNCATE => return Some(Transform::Truncate(width)),
        leaf::transform::IDENTITY => Transform::Identity,
        leaf::transform::YEAR => Transform::Year,
        leaf::transform::MONTH => Transform::Month,
        leaf::transform::DAY => Transform::Day,
        leaf::transform::HOUR => Transform::Hour,
        leaf::transform::VOID => Transform::Void,
        leaf::transform::UNKNOWN => Transform::Unknown,
        _ => return None,
    };
    (width == 0).then_some(transform)
}

pub fn is_zero(bytes: &[u8]) -> bool {
    bytes.iter().all(|byte| *byte == 0)
}

// next and operator stand side by side, so that one run of zeros is both
const _: () = assert!(NEXT + 2 == OPERATOR && OPERATOR + 2 == COLUMN);
