//! Every refusal of document 01 is reached and leaves the lent buffer as it was; a result leaves the bytes behind it.

mod support;

use support::{answers, BEFORE};
use weighpick::sheet::{
    holds, project_into, strict_project_into, strict_project_older_into, transform_into, Record,
    RECORD_SIZE, SHEET_BUFFER, SHEET_MAX, VALUE_BUFFER,
};
use weighpick::{Leaf, Literal, PredicateOperator, Refusal, Transform, Type, Value};

/// A leaf's sheet.
fn sheet(operator: PredicateOperator, transform: Transform, literal: Literal) -> Vec<u8> {
    let leaf = Leaf::binary(operator, transform, &literal).expect("a short literal");
    leaf.as_bytes().to_vec()
}

/// The sample sheet of document 01.
fn sample() -> Vec<u8> {
    sheet(
        PredicateOperator::LessThan,
        Transform::Truncate(10),
        Literal::Int(300),
    )
}

/// A value's record.
fn record(value: impl Into<Value>, column_type: Type) -> Record {
    value
        .into()
        .to_record(column_type)
        .expect("a value of the type")
}

/// The refusal of a value under a transform; the buffer is as it was.
fn transform_refusal(transform: Transform, column_type: Type, value: &[u8]) -> Option<Refusal> {
    let mut out = [BEFORE; VALUE_BUFFER];
    let refusal = transform_into(transform, column_type, value, &mut out).err();
    assert!(refusal.is_none() || out == [BEFORE; VALUE_BUFFER]);
    refusal
}

#[test]
fn buffer_too_small() {
    let mut small = [BEFORE; SHEET_BUFFER - 1];
    for asked in [sample(), Vec::new()] {
        for projection in [project_into, strict_project_into, strict_project_older_into] {
            let refused = projection(&asked, &mut small);
            assert_eq!(refused, Err(Refusal::BufferTooSmall));
        }
    }
    let mut small_value = [BEFORE; VALUE_BUFFER - 1];
    let value = record(Literal::Int(1), Type::Int);
    let transformed = transform_into(Transform::Identity, Type::Int, &value, &mut small_value);
    assert_eq!(transformed, Err(Refusal::BufferTooSmall));
    assert!(small.iter().chain(&small_value).all(|&byte| byte == BEFORE));
}

/// The sample sheet with one byte set.
fn spoilt(at: usize, byte: u8) -> Vec<u8> {
    let mut sheet = sample();
    sheet[at] = byte;
    sheet
}

#[test]
fn malformed_sheet() {
    let mut longer = sample();
    longer.resize(SHEET_MAX + RECORD_SIZE, 0);
    let sheets = [
        Vec::new(),
        sample()[..RECORD_SIZE - 1].to_vec(),
        sample()[..RECORD_SIZE].to_vec(), // next beyond the last record
        longer,
        spoilt(0, 0),                // no literal
        spoilt(2, 0),                // operator
        spoilt(4, 11),               // type
        spoilt(5, 8),                // transform
        spoilt(5, 0),                // a width without Truncate
        spoilt(12, 1),               // reserved
        spoilt(RECORD_SIZE, 1),      // next that does not rise
        spoilt(RECORD_SIZE + 2, 5),  // length
        spoilt(RECORD_SIZE + 10, 1), // content after the length
    ];
    for malformed in sheets {
        let refused = [Refusal::Malformed; 3].map(Err);
        assert_eq!(answers(&malformed), refused, "{malformed:?}");
    }
}

#[test]
fn malformed_value() {
    let whole = record(Literal::Int(1), Type::Int);
    let mut next = whole;
    next[0] = 1;
    let mut filled = record(Value::Missing, Type::Int);
    filled[RECORD_SIZE - 1] = 1;
    for malformed in [&[], &whole[..RECORD_SIZE - 1], &next[..], &filled[..]] {
        let refused = transform_refusal(Transform::Identity, Type::Int, malformed);
        assert_eq!(refused, Some(Refusal::Malformed));
        assert_eq!(holds(&sample(), malformed), Err(Refusal::Malformed));
    }
}

#[test]
fn not_utf8() {
    let text = Literal::string("é");
    let mut sheet = sheet(PredicateOperator::Eq, Transform::Identity, text.clone());
    let missing = record(Value::Missing, Type::String);
    assert_eq!(holds(&sheet, &missing), Ok(false));
    let mut value = record(text, Type::String);
    // Cuts the letter's second byte off its first.
    sheet[RECORD_SIZE + 5] = b'a';
    value[5] = b'a';
    assert_eq!(answers(&sheet), [Refusal::NotUtf8; 3].map(Err));
    assert_eq!(holds(&sheet, &missing), Err(Refusal::NotUtf8));
    let refused = transform_refusal(Transform::Void, Type::String, &value);
    assert_eq!(refused, Some(Refusal::NotUtf8));
}

#[test]
fn no_result_type() {
    let time = sheet(PredicateOperator::Eq, Transform::Year, Literal::Time(0));
    assert_eq!(answers(&time), [Refusal::NoResultType; 3].map(Err));
    let value = record(Value::Missing, Type::Date);
    let refused = transform_refusal(Transform::Hour, Type::Date, &value);
    assert_eq!(refused, Some(Refusal::NoResultType));
}

#[test]
fn data_invalid() {
    let wide = Transform::Truncate(1 << 31);
    let asked = sheet(PredicateOperator::GreaterThan, wide, Literal::Int(0));
    assert_eq!(answers(&asked), [Refusal::DataInvalid; 3].map(Err));
    let value = record(Literal::Timestamp(i64::MAX), Type::Timestamp);
    let refused = transform_refusal(Transform::Month, Type::Timestamp, &value);
    assert_eq!(refused, Some(Refusal::DataInvalid));
}

#[test]
fn feature_unsupported() {
    let unknown = sheet(PredicateOperator::Eq, Transform::Unknown, Literal::Int(0));
    assert_eq!(answers(&unknown), [Refusal::FeatureUnsupported; 3].map(Err));
    let value = record(Value::Missing, Type::Binary);
    let refused = transform_refusal(Transform::Unknown, Type::Binary, &value);
    assert_eq!(refused, Some(Refusal::FeatureUnsupported));
}

#[test]
fn overflow() {
    let above = PredicateOperator::GreaterThan;
    let asked = sheet(above, Transform::Truncate(10), Literal::Int(i32::MAX));
    let [inclusive, strict, older] = answers(&asked);
    assert_eq!(inclusive, Err(Refusal::Overflow));
    assert!(matches!(strict, Ok(Some(_))));
    assert_eq!(older, strict);
    let value = record(Literal::Long(i64::MIN), Type::Long);
    let refused = transform_refusal(Transform::Truncate(3), Type::Long, &value);
    assert_eq!(refused, Some(Refusal::Overflow));
}

#[test]
fn no_predicate_leaves_the_buffer_too() {
    let void = sheet(PredicateOperator::Eq, Transform::Void, Literal::Int(0));
    assert_eq!(answers(&void), [const { Ok(None) }; 3]);
}

#[test]
fn a_result_leaves_the_bytes_behind_it() {
    let sizes = answers(&sample()).map(|answer| answer.map(|found| found.map(|bytes| bytes.len())));
    assert_eq!(sizes, [Ok(Some(2 * RECORD_SIZE)); 3]);
    let value = record(Literal::Int(287), Type::Int);
    let mut out = [BEFORE; 2 * VALUE_BUFFER];
    let written = transform_into(Transform::Truncate(10), Type::Int, &value, &mut out);
    assert_eq!(written, Ok(&record(Literal::Int(280), Type::Int)[..]));
    assert_eq!(out[VALUE_BUFFER..], [BEFORE; VALUE_BUFFER]);
}
