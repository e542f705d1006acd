//! Document 01's worked example through both sides, and what `beside` says of the crate.

use beside::crate_side;
use beside::leaf::{Answer, CONTENT, Leaf, Question, RECORD, SHEET_BUFFER, Value, column, number, operator, transform};
use beside::port;
use beside::sheet::{predicate_of, sheet_chained, sheet_of, value_of, value_record};

/// Int, Truncate 10, < 300.
fn example() -> Leaf {
    Leaf {
        operator: operator::LESS,
        column: column::INT,
        transform: transform::TRUNCATE,
        width: 10,
        literals: vec![300i32.to_le_bytes().to_vec()],
    }
}

fn both_answer(question: Question, operator: u16, literal: i32) {
    let expected =
        Answer { number: number::WRITTEN, predicate: Some((operator, vec![literal.to_le_bytes().to_vec()])) };
    let mut out = vec![0; SHEET_BUFFER];
    let (number, count) = port::project(question, &sheet_of(&example()), &mut out);
    assert_eq!(Answer { number, predicate: predicate_of(&out[..count as usize]) }, expected);
    assert_eq!(crate_side::project(question, &example()), expected);
}

#[test]
fn inclusive_is_at_most_290() {
    both_answer(Question::Inclusive, operator::LESS_EQ, 290);
}

#[test]
fn strict_is_below_300() {
    both_answer(Question::Strict, operator::LESS, 300);
}

#[test]
fn a_sheet_has_document_01s_bytes() {
    let mut expected = [0; 3 * RECORD];
    expected[0] = 2; // next: the literal stands in record 2, record 1 is off the chain
    expected[2] = 201;
    expected[4] = 1;
    expected[5] = 1;
    expected[8] = 10;
    expected[2 * RECORD..][..8].copy_from_slice(&[0, 0, 4, 0, 0x2c, 0x01, 0, 0]);
    assert_eq!(sheet_chained(&example(), &[2]), expected);
}

#[test]
fn a_value_record_is_read_back() {
    for value in [Value::Missing, Value::Present(vec![]), Value::Present(vec![7; CONTENT])] {
        assert_eq!(value_of(&value_record(&value)), Some(value));
    }
    let mut dirty = value_record(&Value::Present(vec![7]));
    dirty[RECORD - 1] = 1;
    assert_eq!(value_of(&dirty), None);
}

#[test]
fn a_panic_of_the_crate_is_8() {
    let lowest = Leaf { literals: vec![i32::MIN.to_le_bytes().to_vec()], ..example() };
    // L−1 leaves the type; only a build with overflow checks, as the comparison's is, answers so
    assert_eq!(crate_side::project(Question::Inclusive, &lowest), Answer::without(number::PANIC));
}

#[test]
fn the_crate_takes_any_time() {
    for moment in [-1, 86_400_000_000, i64::MIN, i64::MAX] {
        let value = Value::Present(i64::to_le_bytes(moment).to_vec());
        let answer = crate_side::transform(column::TIME, transform::IDENTITY, 0, &value);
        assert_eq!((answer.number, answer.value), (number::WRITTEN, Some(value)));
    }
}
