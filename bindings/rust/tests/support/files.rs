//! Files as their lists know them: from their ends, from all their values, in text; and the test of a summary over bytes.

use std::slice;

use weighpick::sheet::RECORD_SIZE;
use weighpick::summary::test_summary_into;
use weighpick::{Leaf, Literal, Refusal, Summary, Type, Value, Verdict};

use super::meets::compare;
use super::{windows, BEFORE};

/// How many values a small world has.
const WORLD: i64 = 5;

/// Where type and flag of a summary stand, behind two records.
pub const TYPE_AT: usize = 2 * RECORD_SIZE;
pub const FLAG_AT: usize = TYPE_AT + 1;

/// The summary of a file: present values from the first to the second, or none, and whether a missing one occurs.
pub fn file(column_type: Type, ends: Option<(&Literal, &Literal)>, missing: bool) -> Summary {
    let present = match ends {
        Some((lowest, highest)) => {
            Summary::between(lowest, highest).expect("two short values of one type")
        }
        None => Summary::empty(column_type),
    };
    present.with_missing(missing)
}

/// The summary of a file of these values.
pub fn file_of(column_type: Type, values: &[Value]) -> Summary {
    let present = || {
        values.iter().filter_map(|value| match value {
            Value::Present(literal) => Some(literal),
            Value::Missing => None,
        })
    };
    let lowest = present().min_by(|a, b| compare(a, b));
    let highest = present().max_by(|a, b| compare(a, b));
    file(
        column_type,
        lowest.zip(highest),
        values.contains(&Value::Missing),
    )
}

/// Every two of some ascending values, the first not above the second, and no ends; each without missing values and with them.
pub fn all_ends(ascending: &[Literal]) -> Vec<(Option<(&Literal, &Literal)>, bool)> {
    let mut ends = vec![None];
    for (place, lowest) in ascending.iter().enumerate() {
        ends.extend(
            ascending[place..]
                .iter()
                .map(|highest| Some((lowest, highest))),
        );
    }
    let flagged = ends
        .into_iter()
        .flat_map(|ends| [(ends, false), (ends, true)]);
    flagged.collect()
}

/// Small worlds of a type, ascending: numbers at 0 and at both ends of the type, strings and binaries that begin one another or not.
pub fn worlds(column_type: Type) -> Vec<Vec<Literal>> {
    match column_type {
        Type::String => vec![["", "a", "ab", "b", "é"].map(Literal::from).into()],
        Type::Binary => {
            let binaries = [&[][..], &[0], &[0, 0xff], &[0x7f], &[0x80]];
            vec![binaries.map(Literal::binary).into()]
        }
        _ => windows(column_type, WORLD),
    }
}

/// Every file with ends in a small world, or without, and whether a missing value occurs.
pub fn files_in(world: &[Literal]) -> Vec<Summary> {
    let files = all_ends(world).into_iter();
    let column_type = world[0].column_type();
    files
        .map(|(ends, missing)| file(column_type, ends, missing))
        .collect()
}

/// Every subset of some literals.
pub fn subsets(literals: &[Literal]) -> Vec<Vec<Literal>> {
    let mut sets = vec![Vec::new()];
    for literal in literals {
        let with = |set: &Vec<Literal>| [&set[..], slice::from_ref(literal)].concat();
        let more: Vec<_> = sets.iter().map(with).collect();
        sets.extend(more);
    }
    sets
}

/// The verdict, asked with a buffer that is longer than it need be. One byte is written, or none.
pub fn answer(sheet: &[u8], summary: &[u8]) -> Result<Verdict, Refusal> {
    let mut out = [BEFORE; 3];
    let written = test_summary_into(sheet, summary, &mut out).map(<[u8]>::to_vec);
    let byte = match written.as_deref() {
        Ok([byte]) => *byte,
        Ok(other) => panic!("{} bytes were written", other.len()),
        Err(_) => BEFORE,
    };
    assert_eq!(out, [byte, BEFORE, BEFORE]);
    written.map(|_| Verdict::from_number(byte).expect("0, 1 or 2"))
}

/// The sheet of a leaf in text.
pub fn sheet(leaf: &str) -> Vec<u8> {
    let leaf: Leaf = leaf.parse().expect("a leaf");
    leaf.as_bytes().to_vec()
}

/// The bytes of a summary in text.
pub fn file_in_text(summary: &str) -> Vec<u8> {
    let summary: Summary = summary.parse().expect("a summary");
    summary.as_bytes().to_vec()
}

/// Bytes with one of them set.
pub fn with(mut bytes: Vec<u8>, at: usize, byte: u8) -> Vec<u8> {
    bytes[at] = byte;
    bytes
}
