//! What the test of a summary answers to bytes of every kind: 2, 3, 4 and 11, in this order, and the lent buffer.

mod support;

use support::files::{answer, file_in_text, sheet, with, FLAG_AT};
use support::BEFORE;
use weighpick::sheet::{Sheet, ANSWER_LITERALS_MAX, CONTENT_MAX, RECORD_SIZE};
use weighpick::summary::{test_summary_into, SUMMARY_SIZE};
use weighpick::{Literal, PredicateOperator, Refusal, Summary, Transform, Type, Value, Verdict};

#[test]
fn an_empty_buffer_is_too_small_whatever_is_asked() {
    let (int, ints) = (sheet("int identity < 3"), file_in_text("int 1 to 2"));
    for (sheet, summary) in [(&int[..], &ints[..]), (&[], &ints), (&int, &[]), (&[], &[])] {
        let refused = test_summary_into(sheet, summary, &mut []);
        assert_eq!(refused, Err(Refusal::BufferTooSmall));
    }
    let mut exact = [BEFORE];
    let written = test_summary_into(&int, &ints, &mut exact);
    assert_eq!(written, Ok(&[Verdict::Whole.number()][..]));
}

#[test]
fn the_order_of_the_answers() {
    let (int, ints, turned) = (
        sheet("int identity < 3"),
        file_in_text("int 1 to 2"),
        file_in_text("int 2 to 1"),
    );
    let (a, texts) = (
        sheet("string identity = \"a\""),
        file_in_text("string \"b\" to \"a\""),
    );
    // A content of one byte, which stands for no character.
    let no_text =
        |bytes: &[u8], record: usize| with(bytes.to_vec(), RECORD_SIZE * record + 4, 0xff);
    // 3 of the sheet, then of the summary, comes before 4 and 11.
    assert_eq!(
        answer(&int[..RECORD_SIZE], &turned),
        Err(Refusal::Malformed)
    );
    assert_eq!(
        answer(&no_text(&a, 1)[..RECORD_SIZE], &no_text(&texts, 0)),
        Err(Refusal::Malformed)
    );
    assert_eq!(
        answer(&no_text(&a, 1), &with(turned.clone(), FLAG_AT, 4)),
        Err(Refusal::Malformed)
    );
    assert_eq!(
        answer(&a, &with(texts.clone(), FLAG_AT, 2)),
        Err(Refusal::Malformed)
    );
    // 4, of a literal or of either end, comes before 11: of types, and of ends that are turned round.
    for (sheet, summary) in [
        (&no_text(&a, 1), &ints),
        (&no_text(&a, 1), &texts),
        (&a, &no_text(&texts, 0)),
        (&a, &no_text(&texts, 1)),
        (&int, &no_text(&texts, 0)),
        (&int, &no_text(&texts, 1)),
    ] {
        assert_eq!(answer(sheet, summary), Err(Refusal::NotUtf8));
    }
    // 11.
    assert_eq!(answer(&int, &turned), Err(Refusal::WrongSummary));
    assert_eq!(answer(&a, &texts), Err(Refusal::WrongSummary));
    assert_eq!(answer(&int, &texts), Err(Refusal::WrongSummary));
    // A Binary need not be UTF-8.
    let lots = file_in_text("binary 0xff to 0xff");
    assert_eq!(
        answer(&sheet("binary identity = 0xff"), &lots),
        Ok(Verdict::Read)
    );
}

#[test]
fn a_type_that_is_not_the_sheet_s() {
    for of_sheet in Type::ALL {
        let leaf = sheet(&format!("{of_sheet} identity IS NULL"));
        for of_file in Type::ALL {
            // Not for the bytes of the ends: there are none.
            let refused = (of_sheet != of_file).then_some(Refusal::WrongSummary);
            assert_eq!(
                answer(&leaf, &file_in_text(&format!("{of_file} empty"))).err(),
                refused
            );
        }
    }
}

#[test]
fn other_sizes() {
    let int = sheet("int identity < 3");
    let long = [file_in_text("int 1 to 2"), vec![0; 200]].concat();
    for size in (0..long.len()).filter(|&size| size != SUMMARY_SIZE) {
        assert_eq!(
            answer(&int, &long[..size]),
            Err(Refusal::Malformed),
            "{size}"
        );
    }
    assert_eq!(answer(&int, &long[..SUMMARY_SIZE]), Ok(Verdict::Whole));
}

/// 02: "a sheet as for the holds-test": of up to 128 literals, and transform and width are not looked at.
#[test]
fn a_sheet_as_for_the_holds_test() {
    let mut largest = Sheet::new(PredicateOperator::In, Type::Int, Transform::Identity);
    for n in 0..ANSWER_LITERALS_MAX as i32 {
        largest.push(&Literal::Int(n)).expect("an Int");
    }
    assert_eq!(
        answer(largest.as_bytes(), &file_in_text("int 0 to 127")),
        Ok(Verdict::Whole)
    );
    let larger = [largest.as_bytes(), &[0; RECORD_SIZE]].concat();
    assert_eq!(
        answer(&larger, &file_in_text("int 0 to 127")),
        Err(Refusal::Malformed)
    );
    for transform in ["truncate[0]", "year", "void", "unknown"] {
        let leaf = sheet(&format!("int {transform} < 3"));
        assert_eq!(
            answer(&leaf, &file_in_text("int 1 to 3")),
            Ok(Verdict::Read)
        );
    }
    let longest = Literal::binary([b'a'; CONTENT_MAX]);
    let record = Value::from(longest.clone()).to_record(Type::Binary);
    let file = Summary::between(&longest, &longest).expect("as long as a record's content");
    assert_eq!(
        Ok(&file.as_bytes()[..RECORD_SIZE]),
        record.as_ref().map(|r| &r[..])
    );
    assert_eq!(
        answer(&sheet("binary identity STARTS WITH 0x61"), file.as_bytes()),
        Ok(Verdict::Read)
    );
}
