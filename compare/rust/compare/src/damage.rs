//! Damaged copies of good sheets and values: bytes changed, fields set to numbers at the edge of their rules, the end
//! cut off or more put on. What is expected of them is the reader's word, not this module's.

use beside::leaf::{ANSWER_LITERALS, CONTENT, LITERALS, MISSING, RECORD, RESERVED};

use crate::rng::Rng;

/// Numbers for a field of two bytes: lengths, records and operators from both sides of their limits.
#[rustfmt::skip]
const WORDS: [usize; 32] = [
    0, 1, 2, 3, 4, 5, 7, 8, 9,
    CONTENT - 1, CONTENT, CONTENT + 1,
    LITERALS - 1, LITERALS, LITERALS + 1, LITERALS + 2,
    100, 101, 104, 105,
    ANSWER_LITERALS, ANSWER_LITERALS + 1,
    200, 201, 208, 209, 256, 300, 301, 302,
    MISSING as usize - 1, MISSING as usize,
];
/// Where a head's and a literal's fields of two bytes stand.
const FIELDS: [usize; 2] = [0, 2];
/// The bytes of a record that hold fields; the head's run longest.
const FIELD_BYTES: usize = RESERVED[1].start;

/// Damages some bytes in one of several ways.
pub fn damage(rng: &mut Rng, bytes: &mut Vec<u8>) {
    match rng.below(8) {
        0..=2 => change(rng, bytes),
        3 => {
            change(rng, bytes);
            change(rng, bytes);
        }
        4 => bytes.truncate(rng.below(bytes.len() + 1)),
        5 => bytes.truncate(rng.below(bytes.len() / RECORD + 1) * RECORD),
        6 => lengthen(rng, bytes),
        _ => set_word(rng, bytes),
    }
}

/// Changes one byte, half of the time one of a field; by one bit, or to any other number.
fn change(rng: &mut Rng, bytes: &mut [u8]) {
    if bytes.is_empty() {
        return;
    }
    let any = rng.below(bytes.len());
    let in_fields = (any - any % RECORD + rng.below(FIELD_BYTES)).min(bytes.len() - 1);
    let at = if rng.one_in(2) { any } else { in_fields };
    bytes[at] ^= if rng.one_in(2) { 1 << rng.below(8) } else { rng.byte() };
}

/// Puts on some bytes or some records, zero or not.
fn lengthen(rng: &mut Rng, bytes: &mut Vec<u8>) {
    let more = if rng.one_in(2) { 1 + rng.below(RECORD) } else { RECORD * (1 + rng.below(3)) };
    let byte = if rng.one_in(2) { 0 } else { rng.byte() };
    bytes.resize(bytes.len() + more, byte);
}

/// Sets a field of two bytes to a number at the edge of some rule.
fn set_word(rng: &mut Rng, bytes: &mut [u8]) {
    if bytes.len() < RECORD {
        return;
    }
    let at = rng.below(bytes.len() / RECORD) * RECORD + rng.pick(&FIELDS);
    let word = rng.pick(&WORDS) as u16;
    bytes[at..at + 2].copy_from_slice(&word.to_le_bytes());
}
