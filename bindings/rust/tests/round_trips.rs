//! What is written is read back: numbers, leaves, predicates and values; and a damaged sheet is refused as the library refuses it.

mod support;

use support::sample::Random;
use support::{answers, TRANSFORMS};
use weighpick::sheet::{project_into, Sheet, RECORD_SIZE, SHEET_BUFFER};
use weighpick::summary::Whose;
use weighpick::{Leaf, Literal, Predicate, PredicateOperator, Refusal, Transform, Type, Value};

/// How many leaves are tried.
const LEAVES: usize = 10_000;

#[test]
fn numbers() {
    let types = (0..=u8::MAX).filter_map(Type::from_number);
    assert!(types.eq(Type::ALL));
    let operators = (0..=u16::MAX).filter_map(PredicateOperator::from_number);
    assert!(operators.eq(PredicateOperator::ALL));
    let refusals = (0..=u32::from(u16::MAX)).filter_map(Refusal::from_number);
    assert!(refusals.eq(Refusal::ALL.iter().copied()));
    assert!((2..=12).eq(Refusal::ALL.iter().map(|refusal| refusal.number())));
    let files = (0..=u64::from(u16::MAX)).filter_map(Whose::from_number);
    assert!(files.eq(Whose::ALL));
    for transform in TRANSFORMS {
        let again = Transform::from_numbers(transform.number(), transform.width());
        assert_eq!(again, Some(transform));
    }
    assert_eq!(Transform::from_numbers(8, 0), None);
    assert_eq!(Transform::from_numbers(Transform::Day.number(), 1), None);
}

#[test]
fn result_types_are_the_library_s() {
    for column_type in Type::ALL {
        for transform in TRANSFORMS {
            let leaf = Leaf::unary(PredicateOperator::IsNull, column_type, transform);
            let answer = leaf.expect("IsNull is unary").project();
            // IsNull passes through, with the result's type; Void has no predicate and keeps the type.
            let answered = answer.map(|p| p.map_or(column_type, |p| p.column_type()));
            let expected = transform.result_type(column_type);
            assert_eq!(answered, expected, "{transform} of {column_type}");
        }
    }
}

#[test]
fn the_bytes_of_the_sample_sheet() {
    let mut bytes = [0; 2 * RECORD_SIZE];
    bytes[..10].copy_from_slice(&[1, 0, 201, 0, 1, 1, 0, 0, 10, 0]);
    bytes[RECORD_SIZE..][..6].copy_from_slice(&[0, 0, 4, 0, 44, 1]);
    let (operator, transform) = (PredicateOperator::LessThan, Transform::Truncate(10));
    let leaf = Leaf::binary(operator, transform, &Literal::Int(300)).expect("an Int");
    assert_eq!(leaf.as_bytes(), bytes);
    assert_eq!(Leaf::from_bytes(&bytes), Ok(leaf));
}

#[test]
fn leaves_and_predicates() {
    let mut random = Random::new(4);
    let mut predicates = 0;
    for _ in 0..LEAVES {
        let leaf = random.leaf();
        assert_eq!(Leaf::from_bytes(leaf.as_bytes()).as_ref(), Ok(&leaf));
        for answer in [
            leaf.project(),
            leaf.strict_project(),
            leaf.strict_project_older(),
        ] {
            let Ok(Some(predicate)) = answer else {
                continue;
            };
            let again = Predicate::from_bytes(predicate.as_bytes());
            assert_eq!(again, Ok(predicate));
            predicates += 1;
        }
    }
    assert!(predicates > LEAVES / 2);
}

#[test]
fn values() {
    let mut random = Random::new(5);
    for column_type in Type::ALL {
        for _ in 0..100 {
            let value = Value::from(random.literal(column_type));
            let record = value.to_record(column_type).expect("a value of the type");
            assert_eq!(Value::from_record(column_type, &record), Ok(value));
        }
        let record = Value::Missing.to_record(column_type).expect("missing");
        let again = Value::from_record(column_type, &record);
        assert_eq!(again, Ok(Value::Missing));
    }
}

#[test]
fn records_off_the_chain_are_left_out() {
    let [first, off, last] = [1, 2, 3].map(Literal::Int);
    let set = |literals: &[&Literal]| {
        let literals = literals.iter().copied();
        Leaf::set(
            PredicateOperator::In,
            Type::Int,
            Transform::Truncate(2),
            literals,
        )
        .expect("a small set")
    };
    let mut bytes = set(&[&first, &off, &last]).as_bytes().to_vec();
    // The first literal's next goes past the second, which nothing then looks at.
    bytes[RECORD_SIZE] = 3;
    bytes[2 * RECORD_SIZE + 2] = 0xff;
    let read = Leaf::from_bytes(&bytes).expect("a well-formed sheet");
    assert_eq!(read, set(&[&first, &last]));
    assert_eq!(answers(&bytes), answers(read.as_bytes()));
}

#[test]
fn a_sheet_is_written_again() {
    let mut sheet = Sheet::new(PredicateOperator::In, Type::String, Transform::Truncate(3));
    sheet.push(&Literal::string("abc")).expect("a short string");
    sheet.restart(PredicateOperator::NotEq, Type::Date, Transform::Day);
    assert!(sheet.is_empty());
    sheet.push(&Literal::Date(7)).expect("a Date");
    let leaf = Leaf::binary(PredicateOperator::NotEq, Transform::Day, &Literal::Date(7));
    assert_eq!(leaf.expect("a Date").as_bytes(), sheet.as_bytes());
}

#[test]
fn a_sheet_under_a_transform_is_no_predicate() {
    let leaf = Leaf::unary(
        PredicateOperator::NotNull,
        Type::Int,
        Transform::Truncate(2),
    );
    let refused = Predicate::from_bytes(leaf.expect("NotNull is unary").as_bytes());
    assert_eq!(refused, Err(Refusal::Malformed));
}

#[test]
fn damaged_sheets_are_read_as_the_library_reads_them() {
    let mut random = Random::new(6);
    let mut refused = 0;
    for _ in 0..LEAVES {
        let mut bytes = random.leaf().as_bytes().to_vec();
        // Most of what matters lies at the start of a record.
        let at = RECORD_SIZE * random.below(bytes.len() / RECORD_SIZE) + random.below(16);
        bytes[at] = random.pick(&[0, 1, 2, 7, 0x80, 0xc3, 0xff]);
        let mut out = [0; SHEET_BUFFER];
        let answer = project_into(&bytes, &mut out).map(|found| found.map(<[u8]>::to_vec));
        match Leaf::from_bytes(&bytes) {
            Ok(leaf) => {
                let typed = leaf.project();
                assert_eq!(typed.map(|p| p.map(|p| p.as_bytes().to_vec())), answer);
            }
            Err(refusal) => {
                assert_eq!(answer, Err(refusal));
                refused += 1;
            }
        }
    }
    assert!(refused > LEAVES / 10 && refused < LEAVES);
}
