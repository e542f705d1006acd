//! Leaves that cannot be built, and the largest that can.

use weighpick::filter::{BRACKETS_MAX, COLUMNS_MAX, COLUMN_SIZE, LEAVES_MAX, NAME_SIZE, TEXT_MAX};
use weighpick::sheet::{
    Sheet, ANSWER_LITERALS_MAX, CONTENT_MAX, LITERALS_MAX, RECORD_SIZE, SHEET_BUFFER, SHEET_MAX,
    VALUE_BUFFER,
};
use weighpick::summary::{SUMMARY_SIZE, VERDICT_BUFFER};
use weighpick::{Leaf, LeafError, Literal, PredicateOperator, Refusal, Transform, Type};

/// In of some Ints.
fn set_of(literals: &[Literal]) -> Result<Leaf, LeafError> {
    Leaf::set(
        PredicateOperator::In,
        Type::Int,
        Transform::Identity,
        literals,
    )
}

/// In numerals, as the paper has them: everything else here is derived from the constants, which this holds to it.
#[test]
fn the_sizes_of_document_01() {
    assert_eq!((RECORD_SIZE, CONTENT_MAX), (64, 60));
    assert_eq!((LITERALS_MAX, ANSWER_LITERALS_MAX), (64, 128));
    assert_eq!((SHEET_MAX, SHEET_BUFFER, VALUE_BUFFER), (4160, 8256, 64));
}

/// And as the paper on filters and summaries has them.
#[test]
fn the_sizes_of_document_02() {
    assert_eq!(
        (NAME_SIZE, COLUMN_SIZE, COLUMNS_MAX),
        (16, 16 + RECORD_SIZE, 8)
    );
    assert_eq!((TEXT_MAX, LEAVES_MAX, BRACKETS_MAX), (4096, 32, 16));
    assert_eq!((SUMMARY_SIZE, VERDICT_BUFFER), (2 * RECORD_SIZE + 2, 1));
}

#[test]
fn each_constructor_takes_its_operators() {
    let literal = Literal::Int(1);
    for operator in PredicateOperator::ALL {
        let wrong = Err(LeafError::WrongOperator(operator));
        let unary = Leaf::unary(operator, Type::Int, Transform::Identity);
        let binary = Leaf::binary(operator, Transform::Identity, &literal);
        let set = Leaf::set(operator, Type::Int, Transform::Identity, [&literal]);
        let taken = [unary, binary, set].map(|leaf| leaf != wrong);
        let hundreds = operator.number() / 100;
        assert_eq!(taken, [1, 2, 3].map(|kind| kind == hundreds), "{operator}");
    }
}

#[test]
fn a_set_has_literals_of_one_type() {
    let mixed = set_of(&[Literal::Int(1), Literal::Date(1)]);
    assert_eq!(mixed, Err(LeafError::WrongType(Type::Int, Type::Date)));
}

#[test]
fn the_longest_literals() {
    for text in ["a".repeat(CONTENT_MAX), "é".repeat(CONTENT_MAX / 2)] {
        let operator = PredicateOperator::StartsWith;
        let leaf = Leaf::binary(operator, Transform::Identity, &Literal::string(&text));
        let leaf = leaf.expect("as long as a record's content");
        assert_eq!(
            leaf.literals().collect::<Vec<_>>(),
            [Literal::string(&text)]
        );
        assert!(leaf.project().is_ok());
        let longer = Literal::string(text + "a");
        let refused = Leaf::binary(operator, Transform::Identity, &longer);
        assert_eq!(refused, Err(LeafError::TooLong(CONTENT_MAX + 1)));
    }
    let bytes = Literal::binary(vec![0; 1 << 16]);
    let refused = Leaf::binary(PredicateOperator::Eq, Transform::Identity, &bytes);
    assert_eq!(refused, Err(LeafError::TooLong(1 << 16)));
}

#[test]
fn the_largest_set() {
    let mut literals: Vec<Literal> = (0..LITERALS_MAX as i32).rev().map(Literal::Int).collect();
    let leaf = set_of(&literals).expect("as many as a sheet takes");
    assert_eq!(leaf.as_bytes().len(), SHEET_MAX);
    assert_eq!(Leaf::from_bytes(leaf.as_bytes()).as_ref(), Ok(&leaf));
    let read = leaf.project().expect("Identity refuses nothing");
    literals.reverse();
    let ascending: Vec<Literal> = read.expect("the leaf itself").literals().collect();
    assert_eq!(ascending, literals);
    literals.push(Literal::Int(0));
    assert_eq!(set_of(&literals), Err(LeafError::TooMany(LITERALS_MAX)));
}

#[test]
fn the_largest_predicate() {
    // Every second day before 1970: each is lifted to the next, and none of them meet.
    let days = (1..=LITERALS_MAX as i64).map(|n| Literal::Timestamp(-2 * n * 86_400_000_000));
    let days: Vec<Literal> = days.collect();
    let leaf = Leaf::set(
        PredicateOperator::In,
        Type::Timestamp,
        Transform::Day,
        &days,
    );
    let read = leaf.expect("as many as a sheet takes").project();
    let read = read.expect("no refusal").expect("In has a projection");
    assert_eq!(read.literals().len(), ANSWER_LITERALS_MAX);
    assert_eq!(read.as_bytes().len(), SHEET_BUFFER);
    let all = (-2 * LITERALS_MAX as i32..0).map(Literal::Date);
    assert!(read.literals().eq(all.clone()));
    assert!(all.map(Into::into).all(|day| read.holds(&day) == Ok(true)));
    assert_eq!(read.holds(&Literal::Date(0).into()), Ok(false));
    // As a leaf it has too many.
    assert_eq!(Leaf::from_bytes(read.as_bytes()), Err(Refusal::Malformed));
}

#[test]
fn a_sheet_takes_as_many_literals_as_an_answer_has() {
    let mut sheet = Sheet::new(PredicateOperator::In, Type::Int, Transform::Identity);
    for n in 0..ANSWER_LITERALS_MAX as i32 {
        assert_eq!(sheet.push(&Literal::Int(n)), Ok(()));
    }
    let refused = sheet.push(&Literal::Int(0));
    assert_eq!(refused, Err(LeafError::TooMany(ANSWER_LITERALS_MAX)));
    assert_eq!(Sheet::from_bytes(sheet.as_bytes()), Ok(sheet));
}
