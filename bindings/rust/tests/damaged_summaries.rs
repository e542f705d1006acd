//! Every byte of some summaries set to every number: what is a summary, by document 02's words, and what is not.

mod support;

use support::files::{answer, file_in_text, sheet, with, FLAG_AT, TYPE_AT};
use weighpick::sheet::{holds, RECORD_SIZE};
use weighpick::summary::SUMMARY_SIZE;
use weighpick::{Refusal, Summary, Type};

/// 02: "two value records, lowest first, a type byte and a flag byte: 1 for a missing value, plus 2 for none present, when both ends
/// are marked missing; any other shape is 3". Whether a record is a value's is asked of the holds-test.
fn is_summary(bytes: &[u8; SUMMARY_SIZE]) -> bool {
    let Some(column_type) = Type::from_number(bytes[TYPE_AT]) else {
        return false;
    };
    let is_null = sheet(&format!("{column_type} identity IS NULL"));
    let marked_missing =
        |record: usize| match holds(&is_null, &bytes[RECORD_SIZE * record..][..RECORD_SIZE]) {
            Ok(missing) => Some(missing),
            Err(Refusal::NotUtf8) => Some(false),
            Err(_) => None,
        };
    let none_present = match bytes[FLAG_AT] {
        0 | 1 => false,
        2 | 3 => true,
        _ => return false,
    };
    [0, 1]
        .iter()
        .all(|&record| marked_missing(record) == Some(none_present))
}

#[test]
fn every_byte() {
    let leaves = [
        "int identity < 3",
        "string identity = \"a\"",
        "binary identity IS NULL",
    ];
    let leaves = leaves.map(sheet);
    let mut answers = [0; 12];
    for text in [
        "int 1 to 2",
        "int 1 to 2, missing",
        "long 1 to 2",
        "string \"a\" to \"bé\"",
        "binary 0x to 0xff",
        "int empty",
        "string missing",
    ] {
        for (at, byte) in (0..SUMMARY_SIZE).flat_map(|at| (0..=u8::MAX).map(move |byte| (at, byte)))
        {
            let damaged = with(file_in_text(text), at, byte);
            let malformed = !is_summary(damaged.as_slice().try_into().expect("a summary's size"));
            for leaf in &leaves {
                let answered = answer(leaf, &damaged);
                let refused = answered == Err(Refusal::Malformed);
                assert_eq!(refused, malformed, "{text}: {byte} at {at}");
                answers[answered.map_or_else(|r| r.number() as usize, |_| 0)] += 1;
            }
            match Summary::from_bytes(&damaged) {
                Ok(read) => assert_eq!((read.as_bytes(), malformed), (&damaged[..], false)),
                Err(Refusal::Malformed) => assert!(malformed),
                Err(other) => assert_eq!((other, malformed), (Refusal::NotUtf8, false)),
            }
        }
    }
    let given = answers.iter().enumerate().filter(|(_, count)| **count > 0);
    let given = given.map(|(number, _)| number);
    assert!(given.eq([0, 3, 4, 11]), "{answers:?}");
}
