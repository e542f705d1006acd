//! Records of document 01: their sizes, and how a head, a literal and a missing value lie in one.

use crate::{PredicateOperator, Transform, Type};

/// The bytes of a record.
pub const RECORD_SIZE: usize = 64;

/// The most bytes of a literal or value, a record's content.
pub const CONTENT_MAX: usize = RECORD_SIZE - CONTENT_AT;

/// The most literals of a sheet to be projected.
pub const LITERALS_MAX: usize = 64;

/// The most literals of an answer sheet, and of a sheet that a value is tested with: lifting may add one for each.
pub const ANSWER_LITERALS_MAX: usize = 2 * LITERALS_MAX;

/// The bytes of the largest sheet to be projected: a head and its literals.
pub const SHEET_MAX: usize = RECORD_SIZE * (1 + LITERALS_MAX);

/// The bytes that a projection's result buffer has at least.
pub const SHEET_BUFFER: usize = RECORD_SIZE * (1 + ANSWER_LITERALS_MAX);

/// The bytes that the result buffer for one value has at least.
pub const VALUE_BUFFER: usize = RECORD_SIZE;

/// One record, as a value is handed over.
pub type Record = [u8; RECORD_SIZE];

/// Where a record's content starts, after next and length.
const CONTENT_AT: usize = 4;

/// The length that marks a missing value.
const MISSING: u16 = 65535;

/// A record of zeros, to be written to.
pub(crate) const EMPTY: Record = [0; RECORD_SIZE];

/// Writes the first two words of a record. Fields that are written one by one and then read together make a processor wait, so
/// they are put together first.
#[inline]
fn put_words(record: &mut Record, first: u64, second: u64) {
    record[..8].copy_from_slice(&first.to_le_bytes());
    record[8..16].copy_from_slice(&second.to_le_bytes());
}

/// The head of a sheet, its first record.
#[inline]
pub(crate) fn head_record(
    next: u16,
    operator: PredicateOperator,
    column_type: Type,
    transform: Transform,
) -> Record {
    let numbers = u64::from(next) | u64::from(operator.number()) << 16;
    head_with(numbers, column_type, transform)
}

/// The head in an entry of a column list: next and operator are 0.
pub(crate) fn column_head(column_type: Type, transform: Transform) -> Record {
    head_with(0, column_type, transform)
}

/// A head of which the first two fields, next and operator, are given.
#[inline]
fn head_with(first_fields: u64, column_type: Type, transform: Transform) -> Record {
    let numbers = u64::from(column_type.number()) << 32 | u64::from(transform.number()) << 40;
    let mut record = EMPTY;
    let width = u64::from(transform.width());
    put_words(&mut record, first_fields | numbers, width);
    record
}

/// The operator that a head names, if it is listed.
pub(crate) fn operator(head: &Record) -> Option<PredicateOperator> {
    PredicateOperator::from_number(word(head, 2))
}

/// Puts another operator into a head.
pub(crate) fn set_operator(head: &mut Record, operator: PredicateOperator) {
    head[2..4].copy_from_slice(&operator.number().to_le_bytes());
}

/// The column type that a head names, if it is listed.
pub(crate) fn column_type(head: &Record) -> Option<Type> {
    Type::from_number(head[4])
}

/// The transform that a head names, if it is listed and may have the head's width.
pub(crate) fn transform(head: &Record) -> Option<Transform> {
    let width = u32::from_le_bytes([head[8], head[9], head[10], head[11]]);
    Transform::from_numbers(head[5], width)
}

/// The two bytes at `at`.
fn word(record: &Record, at: usize) -> u16 {
    u16::from_le_bytes([record[at], record[at + 1]])
}

/// Writes a number of 4 bytes into an empty record.
#[inline]
pub(crate) fn put_int(record: &mut Record, number: i32) {
    put_words(record, 4 << 16 | u64::from(number as u32) << 32, 0);
}

/// Writes a number of 8 bytes into an empty record.
#[inline]
pub(crate) fn put_long(record: &mut Record, number: i64) {
    let bits = number as u64;
    put_words(record, 8 << 16 | bits << 32, bits >> 32);
}

/// Writes a content into an empty record; none where it is too long.
#[inline]
pub(crate) fn put_content(record: &mut Record, content: &[u8]) -> Option<()> {
    let place = record[CONTENT_AT..].get_mut(..content.len())?;
    place.copy_from_slice(content);
    // At most CONTENT_MAX, so the number fits.
    put_length(record, content.len() as u16);
    Some(())
}

/// Writes the length of a literal or value.
fn put_length(record: &mut Record, length: u16) {
    record[2..4].copy_from_slice(&length.to_le_bytes());
}

/// The content of a literal or value; none where its length is that of a missing value, or too long.
pub(crate) fn content(record: &Record) -> Option<&[u8]> {
    record[CONTENT_AT..].get(..usize::from(word(record, 2)))
}

/// Marks an empty record as a missing value.
pub(crate) fn put_missing(record: &mut Record) {
    put_length(record, MISSING);
}

/// The number of the record that follows on the chain; 0 ends it.
pub(crate) fn next(record: &Record) -> usize {
    usize::from(word(record, 0))
}

/// The bytes of a next.
pub(crate) fn next_bytes(number: u16) -> [u8; 2] {
    number.to_le_bytes()
}
