//! Leaves and values as the bytes of document 01: sheets of records, chained by a next index. The comparison's own
//! reading and writing; it shares nothing with the port.

use crate::leaf::{ANSWER_LITERALS, CONTENT, CONTENT_AT, Leaf, MISSING, RECORD, Value, column, transform};

/// Where the fields stand in a head (record 0) and in a literal record.
pub const NEXT: usize = 0;
pub const OPERATOR: usize = 2;
pub const COLUMN: usize = 4;
pub const TRANSFORM: usize = 5;
pub const WIDTH: usize = 8;
pub const LENGTH: usize = 2;

/// The sheet of a leaf, its literals in records 1, 2, .. as they come.
pub fn sheet_of(leaf: &Leaf) -> Vec<u8> {
    let order: Vec<usize> = (1..=leaf.literals.len()).collect();
    sheet_chained(leaf, &order)
}

/// The sheet of a leaf with literal `i` in record `order[i]`: the chain is 0, `order[0]`, `order[1]`, .., 0. Records
/// that `order` skips are off the chain and zero. An order that does not ascend makes a malformed sheet.
pub fn sheet_chained(leaf: &Leaf, order: &[usize]) -> Vec<u8> {
    assert_eq!(order.len(), leaf.literals.len(), "one record for each literal");
    let records = 1 + order.iter().copied().max().unwrap_or(0);
    let mut sheet = vec![0; records * RECORD];
    sheet[..RECORD].copy_from_slice(&head(leaf.operator, leaf.column, leaf.transform, leaf.width));
    let mut last = 0;
    for (literal, &record) in leaf.literals.iter().zip(order) {
        put_u16(&mut sheet, last * RECORD + NEXT, record as u16);
        put_content(&mut sheet[record * RECORD..][..RECORD], literal);
        last = record;
    }
    sheet
}

/// A head with next 0.
pub fn head(operator: u16, column: u8, transform: u8, width: u32) -> [u8; RECORD] {
    let mut head = [0; RECORD];
    put_u16(&mut head, OPERATOR, operator);
    head[COLUMN] = column;
    head[TRANSFORM] = transform;
    head[WIDTH..WIDTH + 4].copy_from_slice(&width.to_le_bytes());
    head
}

/// The record of one value.
pub fn value_record(value: &Value) -> [u8; RECORD] {
    let mut record = [0; RECORD];
    match value {
        Value::Missing => put_u16(&mut record, LENGTH, MISSING),
        Value::Present(content) => put_content(&mut record, content),
    }
    record
}

/// The summary of a file: the lowest and the highest of its present values, with none missing.
pub fn summary_of(column: u8, lowest: &[u8], highest: &[u8]) -> Vec<u8> {
    let end = |content: &[u8]| value_record(&Value::Present(content.to_vec()));
    // type and flag behind the records
    [&end(lowest)[..], &end(highest), &[column, 0]].concat()
}

/// The pooled summary of two, by the three numbers of pooling: the end of the first, under 0, or of the second, under 1,
/// and the flag.
pub fn pooled_of(first: &[u8], second: &[u8], [lowest, highest, flag]: [u64; 3]) -> Vec<u8> {
    let end = |whose: u64, record: usize| &[first, second][whose as usize][record * RECORD..][..RECORD];
    [end(lowest, 0), end(highest, 1), &[first[2 * RECORD], flag as u8]].concat()
}

/// Operator and literals of an answer sheet; none unless it is what document 01 says an answer sheet is: transform 0,
/// width 0, its literals in records 1, 2, .. in the order of the chain, every other byte zero.
pub fn predicate_of(sheet: &[u8]) -> Option<(u16, Vec<Vec<u8>>)> {
    let (records, rest) = sheet.as_chunks::<RECORD>();
    let (head, literals) = records.split_first()?;
    if !rest.is_empty() || literals.len() > ANSWER_LITERALS || !is_answer_head(head) {
        return None;
    }
    for (number, record) in records.iter().enumerate() {
        let next = if number == literals.len() { 0 } else { number + 1 };
        if usize::from(u16_at(record, NEXT)) != next {
            return None;
        }
    }
    let contents: Option<Vec<Vec<u8>>> = literals.iter().map(content_of).collect();
    Some((u16_at(head, OPERATOR), contents?))
}

/// The column type of an answer sheet: the result type.
pub fn column_of(sheet: &[u8]) -> Option<u8> {
    sheet.get(COLUMN).copied()
}

/// The value of a record; none unless it is one record with next 0 and zero bytes after the content.
pub fn value_of(record: &[u8]) -> Option<Value> {
    let record: &[u8; RECORD] = record.try_into().ok()?;
    if u16_at(record, NEXT) != 0 {
        return None;
    }
    if u16_at(record, LENGTH) == MISSING {
        return is_zero(&record[CONTENT_AT..]).then_some(Value::Missing);
    }
    content_of(record).map(Value::Present)
}

fn is_answer_head(head: &[u8; RECORD]) -> bool {
    column::ALL.contains(&head[COLUMN]) && head[TRANSFORM] == transform::IDENTITY && is_zero(&head[TRANSFORM + 1..])
}

/// A literal record's content, if its length is one that a record can hold and zero bytes follow.
fn content_of(record: &[u8; RECORD]) -> Option<Vec<u8>> {
    let length = usize::from(u16_at(record, LENGTH));
    let (content, after) = record[CONTENT_AT..].split_at_checked(length)?;
    is_zero(after).then(|| content.to_vec())
}

/// Puts a content and its length. A content too long for a record is cut, its length kept: a malformed record.
fn put_content(record: &mut [u8], content: &[u8]) {
    let kept = content.len().min(CONTENT);
    put_u16(record, LENGTH, content.len() as u16);
    record[CONTENT_AT..CONTENT_AT + kept].copy_from_slice(&content[..kept]);
}

fn put_u16(bytes: &mut [u8], at: usize, number: u16) {
    bytes[at..at + 2].copy_from_slice(&number.to_le_bytes());
}

fn u16_at(bytes: &[u8; RECORD], at: usize) -> u16 {
    u16::from_le_bytes([bytes[at], bytes[at + 1]])
}

fn is_zero(bytes: &[u8]) -> bool {
    bytes.iter().all(|byte| *byte == 0)
}
