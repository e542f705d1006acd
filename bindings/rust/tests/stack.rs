//! Filters that open many brackets, or have many words, need little of a thread's stack.

use std::thread;

use weighpick::filter::{BRACKETS_MAX, TEXT_MAX};
use weighpick::{Columns, Filter, Literal, Pick, Refusal, Transform, Type};

/// A small thread's stack, in bytes.
const STACK: usize = 64 * 1024;

/// What a text over a column `a` is answered in a small thread: of a row, and what is done with the row's file.
fn answer(text: String) -> (Result<bool, Refusal>, Pick) {
    let small = thread::Builder::new().stack_size(STACK);
    let asked = small.spawn(move || {
        let columns = Columns::new([("a", Type::Int, Transform::Truncate(10))])?;
        let value = [Literal::Int(0).into()];
        let (row, file) = (columns.row(&value)?, columns.partition(&value)?);
        let filter = Filter::new(&columns, &text);
        Ok::<_, weighpick::Error>((filter.row(&row), filter.pick(&file)))
    });
    let ended = asked.expect("a thread").join();
    ended.expect("no panic").expect("a column and its value")
}

#[test]
fn brackets_that_stay_open() {
    let expected = (Err(Refusal::OutsideGrammar), Pick::Read);
    assert_eq!(answer("(".repeat(TEXT_MAX)), expected);
    assert_eq!(answer("not(".repeat(TEXT_MAX / 4)), expected);
}

#[test]
fn brackets_in_brackets() {
    let nested = |count| format!("{}a<5{}", "(".repeat(count), ")".repeat(count));
    assert_eq!(answer(nested(BRACKETS_MAX)), (Ok(true), Pick::Read));
    let large = (Err(Refusal::TooLarge), Pick::Read);
    assert_eq!(answer(nested(BRACKETS_MAX + 1)), large);
    // As many as a text has room for.
    assert_eq!(answer(nested((TEXT_MAX - 3) / 2)), large);
}

#[test]
fn words_in_a_row() {
    assert_eq!(answer("not ".repeat(1000) + "a<5"), (Ok(true), Pick::Read));
    assert_eq!(answer("not ".repeat(1001) + "a<5"), (Ok(false), Pick::Read));
}

#[test]
fn long_literals() {
    let zeros = format!("a<{}10", "0".repeat(TEXT_MAX - 4));
    assert_eq!(answer(zeros), (Ok(true), Pick::Whole));
}
