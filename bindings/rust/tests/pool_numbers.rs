//! The three numbers that pooling sets, by its C name: after 0 they are the same whatever they were before, and after a refusal as
//! they were.

// One of them is called here.
#[allow(dead_code)]
#[path = "../src/c_names.rs"]
mod c_names;
mod support;

use c_names::weighpick_pool;
use support::files::{file_in_text, with, FLAG_AT};
use weighpick::summary::pool;
use weighpick::Refusal;

/// The answer's number, and the three numbers, which have some values before.
fn ask(first: &[u8], second: &[u8], before: [u64; 3]) -> (u32, [u64; 3]) {
    let [mut lowest, mut highest, mut flag] = before;
    // SAFETY: both slices go with their lengths, and the three numbers are variables of their own.
    let number = unsafe {
        weighpick_pool(
            first.as_ptr(),
            first.len(),
            second.as_ptr(),
            second.len(),
            &mut lowest,
            &mut highest,
            &mut flag,
        )
    };
    (number, [lowest, highest, flag])
}

/// Some numbers before a call: those that may be set, and others.
const BEFORE: [[u64; 3]; 4] = [[0, 0, 0], [1, 1, 3], [7, 8, 9], [u64::MAX; 3]];

#[test]
fn set_after_0() {
    let files = [
        "int 1 to 2",
        "int 0 to 2",
        "int 1 to 3, missing",
        "int empty",
        "int missing",
    ];
    let files = files.map(file_in_text);
    for (first, second) in files.iter().flat_map(|f| files.iter().map(move |s| (f, s))) {
        let pooled = pool(first, second).expect("two summaries of one type");
        let whose = [pooled.lowest, pooled.highest].map(|end| end.whose.number());
        let set = [whose[0], whose[1], pooled.flag.into()];
        for before in BEFORE {
            assert_eq!(ask(first, second, before), (0, set));
        }
    }
}

#[test]
fn as_they_were_after_a_refusal() {
    let (ints, texts) = (
        file_in_text("int 1 to 2"),
        file_in_text("string \"a\" to \"b\""),
    );
    let refused = [
        (Refusal::Malformed, Vec::new()),
        (Refusal::Malformed, with(ints.clone(), FLAG_AT, 2)),
        (Refusal::NotUtf8, with(texts.clone(), 4, 0xff)),
        (Refusal::WrongSummary, file_in_text("int 2 to 1")),
        (Refusal::DifferentTypes, texts),
    ];
    for (refusal, other) in refused {
        for before in BEFORE {
            let expected = (refusal.number(), before);
            assert_eq!(ask(&ints, &other, before), expected);
            assert_eq!(ask(&other, &ints, before), expected);
        }
    }
}

/// One summary may be lent twice.
#[test]
fn a_file_with_itself() {
    let file = file_in_text("int 1 to 2, missing");
    assert_eq!(ask(&file, &file, [7; 3]), (0, [0, 0, 1]));
}
