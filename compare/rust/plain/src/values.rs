//! The values beside a column list: one record a column.

use sheets::filter::Asked;
use sheets::leaf::{CONTENT_AT, MISSING, RECORD};
use sheets::sheet::{LENGTH, NEXT};

use crate::Refusal;
use crate::columns::{Column, Type, is_zero};
use crate::tree::Value;

/// A value for each column, none where it is missing. That one is malformed comes before that another is not UTF-8.
pub fn read<'a>(asked: Asked, columns: &[Column], values: &'a [u8]) -> Result<Vec<Option<Value<'a>>>, Refusal> {
    let (records, rest) = values.as_chunks::<RECORD>();
    if !rest.is_empty() || records.len() != columns.len() {
        return Err(Refusal::Malformed);
    }
    let mut read = Vec::with_capacity(columns.len());
    let mut is_utf8 = true;
    for (column, record) in columns.iter().zip(records) {
        let of = match asked {
            Asked::Row => column.column,
            Asked::Inclusive | Asked::Strict => column.result_type().unwrap_or(column.column),
        };
        match read_value(of, record) {
            Ok(value) => read.push(value),
            Err(Refusal::NotUtf8) => is_utf8 = false,
            Err(refusal) => return Err(refusal),
        }
    }
    if is_utf8 { Ok(read) } else { Err(Refusal::NotUtf8) }
}

fn read_value(of: Type, record: &[u8; RECORD]) -> Result<Option<Value<'_>>, Refusal> {
    if u16_at(record, NEXT) != 0 {
        return Err(Refusal::Malformed);
    }
    let length = u16_at(record, LENGTH);
    if length == MISSING {
        return if is_zero(&record[CONTENT_AT..]) { Ok(None) } else { Err(Refusal::Malformed) };
    }
    let (content, after) = record[CONTENT_AT..].split_at_checked(length.into()).ok_or(Refusal::Malformed)?;
    if !is_zero(after) {
        return Err(Refusal::Malformed);
    }
    let value = match of {
        Type::String => Value::String(str::from_utf8(content).map_err(|_| Refusal::NotUtf8)?),
        Type::Binary => Value::Binary(content),
        Type::Int | Type::Date => {
            Value::Number(i32::from_le_bytes(content.try_into().map_err(|_| Refusal::Malformed)?).into())
        }
        _ => Value::Number(i64::from_le_bytes(content.try_into().map_err(|_| Refusal::Malformed)?)),
    };
    Ok(Some(value))
}

fn u16_at(bytes: &[u8; RECORD], at: usize) -> u16 {
    u16::from_le_bytes([bytes[at], bytes[at + 1]])
}
