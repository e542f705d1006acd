//! What pooling answers to bytes of every kind: 3, 4, 11 and 12, in this order, each of either summary.

mod support;

use support::files::{answer, file_in_text, sheet, with, FLAG_AT, TYPE_AT};
use weighpick::sheet::RECORD_SIZE;
use weighpick::summary::{pool, SUMMARY_SIZE};
use weighpick::{Refusal, Summary, Type};

/// The refusal of two summaries, if they are refused.
fn refusal(first: &[u8], second: &[u8]) -> Option<Refusal> {
    pool(first, second).err()
}

/// A content of one byte which stands for no character, in one of the records.
fn no_text(bytes: Vec<u8>, record: usize) -> Vec<u8> {
    with(bytes, RECORD_SIZE * record + 4, 0xff)
}

#[test]
fn the_order_of_the_answers() {
    use Refusal::{DifferentTypes, Malformed, NotUtf8, WrongSummary};
    let (ints, texts) = (
        file_in_text("int 1 to 2"),
        file_in_text("string \"a\" to \"b\""),
    );
    let turned_texts = file_in_text("string \"b\" to \"a\"");
    // What a summary is refused with whatever stands beside it, unless that is refused sooner.
    let files = [
        (None, ints.clone()),
        (None, texts.clone()),
        (None, file_in_text("int empty")),
        (None, file_in_text("string missing")),
        (Some(Malformed), Vec::new()),
        (Some(Malformed), with(ints.clone(), FLAG_AT, 4)),
        (Some(Malformed), with(turned_texts.clone(), FLAG_AT, 2)),
        (Some(Malformed), no_text(texts.clone(), 1)[1..].to_vec()),
        (Some(NotUtf8), no_text(texts.clone(), 0)),
        (Some(NotUtf8), no_text(texts, 1)),
        (Some(NotUtf8), no_text(turned_texts.clone(), 1)),
        (Some(WrongSummary), file_in_text("int 2 to 1")),
        (Some(WrongSummary), file_in_text("date 2 to 1, missing")),
        (Some(WrongSummary), turned_texts),
    ];
    for (of_first, first) in &files {
        for (of_second, second) in &files {
            let types = || (first[TYPE_AT] != second[TYPE_AT]).then_some(DifferentTypes);
            let sooner = [*of_first, *of_second].into_iter().flatten();
            let expected = sooner.min_by_key(|r| r.number()).or_else(types);
            assert_eq!(refusal(first, second), expected, "{first:?} {second:?}");
        }
    }
    // A Binary need not be UTF-8.
    let lots = file_in_text("binary 0xff to 0xff");
    assert_eq!(refusal(&lots, &lots), None);
}

#[test]
fn different_types() {
    for first in Type::ALL {
        for second in Type::ALL {
            // Not for the bytes of the ends: there are none.
            let types = (first != second).then_some(Refusal::DifferentTypes);
            let [first, second] = [first, second].map(Summary::empty);
            assert_eq!(refusal(first.as_bytes(), second.as_bytes()), types);
            assert_eq!(first.pool(&second).err(), types);
        }
    }
}

#[test]
fn other_sizes() {
    let file = file_in_text("int 1 to 2");
    let long = [&file[..], &[0; 200]].concat();
    for size in (0..long.len()).filter(|&size| size != SUMMARY_SIZE) {
        let other = &long[..size];
        for (first, second) in [(&file[..], other), (other, &file), (other, other)] {
            assert_eq!(refusal(first, second), Some(Refusal::Malformed), "{size}");
        }
    }
    assert_eq!(refusal(&file, &long[..SUMMARY_SIZE]), None);
}

/// The refusal of one summary by itself, as its test by a leaf of its own type answers it.
fn by_itself(summary: &[u8]) -> Option<Refusal> {
    let column_type = Type::from_number(summary[TYPE_AT]).unwrap_or(Type::Int);
    let leaf = sheet(&format!("{column_type} identity IS NULL"));
    answer(&leaf, summary).err()
}

/// Every byte of some summaries set to every number, on either side.
#[test]
fn every_byte() {
    let others = ["int 0 to 9", "string \"a\" to \"b\"", "binary empty"].map(file_in_text);
    let mut answers = [0; 13];
    for text in [
        "int 1 to 2",
        "long 1 to 2, missing",
        "string \"a\" to \"bé\"",
        "binary 0x to 0xff",
        "string missing",
    ] {
        let file = file_in_text(text);
        for (at, byte) in (0..SUMMARY_SIZE).flat_map(|at| (0..=u8::MAX).map(move |byte| (at, byte)))
        {
            let damaged = with(file.clone(), at, byte);
            let alone = by_itself(&damaged);
            for other in &others {
                let types = || {
                    let differ = damaged[TYPE_AT] != other[TYPE_AT];
                    differ.then_some(Refusal::DifferentTypes)
                };
                let expected = alone.or_else(types);
                assert_eq!(refusal(&damaged, other), expected, "{text}: {byte} at {at}");
                assert_eq!(refusal(other, &damaged), expected, "{text}: {byte} at {at}");
                answers[expected.map_or(0, |r| r.number() as usize)] += 1;
            }
        }
    }
    let given = answers.iter().enumerate().filter(|(_, count)| **count > 0);
    let given = given.map(|(number, _)| number);
    assert!(given.eq([0, 3, 4, 11, 12]), "{answers:?}");
}
