//! Document 01's rules on bytes, read a second time: a sheet to the leaf it holds, a value record to its value, or the
//! refusal, 3 (malformed) or 4 (not UTF-8). It shares nothing with the port, which is held against it.

use beside::leaf::{
    CONTENT, CONTENT_AT, Leaf, MISSING, RECORD, RESERVED, Value, column, content_length, number, operator, transform,
};

/// The leaf of a sheet that may have up to `most` literals, so one record more; the holds-test takes more than a
/// projection. Malformed is 3; whether strings are UTF-8 is asked apart, since every 3 comes before any 4.
pub fn sheet(sheet: &[u8], most: usize) -> Result<Leaf, u32> {
    let (records, rest) = sheet.as_chunks::<RECORD>();
    need(rest.is_empty() && records.len() <= 1 + most)?;
    let head = records.first().ok_or(number::MALFORMED)?;
    let width = u32::from_le_bytes([head[8], head[9], head[10], head[11]]);
    let mut leaf =
        Leaf { operator: word(head, 2) as u16, column: head[4], transform: head[5], width, literals: Vec::new() };
    need(operator::ALL.contains(&leaf.operator))?;
    self::head(leaf.column, leaf.transform, leaf.width)?;
    need(RESERVED.into_iter().all(|part| is_zero(&head[part])))?;
    let mut at = 0;
    while word(&records[at], 0) != 0 {
        let next = word(&records[at], 0);
        need(at < next && next < records.len())?;
        at = next;
        leaf.literals.push(content(leaf.column, &records[at])?);
    }
    need(takes(leaf.operator, leaf.literals.len()))?;
    Ok(leaf)
}

/// Whether an operator takes so many literals; a set takes any number that the records allow.
fn takes(operator: u16, literals: usize) -> bool {
    match operator {
        operator::IS_NULL..=operator::NOT_NAN => literals == 0,
        operator::LESS..=operator::NOT_STARTS_WITH => literals == 1,
        _ => true,
    }
}

/// The head's rules on type, transform and width, which also bind the numbers handed to a transform.
pub fn head(column: u8, transform: u8, width: u32) -> Result<(), u32> {
    need(column::ALL.contains(&column) && transform::ALL.contains(&transform))?;
    need(width == 0 || transform == transform::TRUNCATE)
}

/// The value of one value record, or 3.
pub fn value(column: u8, bytes: &[u8]) -> Result<Value, u32> {
    let record: &[u8; RECORD] = bytes.try_into().map_err(|_| number::MALFORMED)?;
    need(word(record, 0) == 0)?;
    if word(record, 2) == usize::from(MISSING) {
        need(is_zero(&record[CONTENT_AT..]))?;
        return Ok(Value::Missing);
    }
    content(column, record).map(Value::Present)
}

/// 4 unless the contents of a String are UTF-8; other types are not judged.
pub fn utf8<'a>(column: u8, mut contents: impl Iterator<Item = &'a Vec<u8>>) -> Result<(), u32> {
    if column == column::STRING && contents.any(|content| std::str::from_utf8(content).is_err()) {
        return Err(number::NOT_UTF8);
    }
    Ok(())
}

/// The content of a literal record, or 3.
fn content(column: u8, record: &[u8; RECORD]) -> Result<Vec<u8>, u32> {
    let length = word(record, 2);
    match content_length(column) {
        Some(fixed) => need(length == fixed)?,
        None => need(length <= CONTENT)?,
    }
    let (content, after) = record[CONTENT_AT..].split_at(length);
    need(is_zero(after))?;
    Ok(content.to_vec())
}

fn need(test: bool) -> Result<(), u32> {
    if test { Ok(()) } else { Err(number::MALFORMED) }
}

/// Two bytes, little-endian.
fn word(record: &[u8; RECORD], at: usize) -> usize {
    u16::from_le_bytes([record[at], record[at + 1]]).into()
}

fn is_zero(bytes: &[u8]) -> bool {
    bytes.iter().all(|byte| *byte == 0)
}

#[cfg(test)]
mod tests {
    use super::*;
    use beside::leaf::LITERALS;

    /// Document 01's own sheet: Int, Truncate 10, < 300.
    #[test]
    fn sheet_of_the_paper() {
        let mut bytes = vec![0; 2 * RECORD];
        bytes[..12].copy_from_slice(&[1, 0, 201, 0, 1, 1, 0, 0, 10, 0, 0, 0]);
        bytes[RECORD..RECORD + 8].copy_from_slice(&[0, 0, 4, 0, 44, 1, 0, 0]);
        let leaf = Leaf { operator: 201, column: 1, transform: 1, width: 10, literals: vec![vec![44, 1, 0, 0]] };
        assert_eq!(sheet(&bytes, LITERALS), Ok(leaf));
        let in_head = [(0, 0), (0, 2), (2, 200), (4, 11), (5, 8), (5, 0), (6, 1), (12, 1), (RECORD - 1, 1)];
        let in_literal = [(0, 1), (2, 3), (8, 1), (RECORD - 1, 1)].map(|(at, byte)| (RECORD + at, byte));
        for (at, byte) in in_head.into_iter().chain(in_literal) {
            let mut damaged = bytes.clone();
            damaged[at] = byte;
            assert_eq!(sheet(&damaged, LITERALS), Err(number::MALFORMED), "byte {at} set to {byte}");
        }
    }
}
