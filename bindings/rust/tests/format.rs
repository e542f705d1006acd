//! The sizes of `docs/FORMAT.md`, and its examples, with the bytes and the texts that stand there.

use weighpick::filter::{
    filter_project, filter_row, filter_strict_project, BRACKETS_MAX, COLUMNS_MAX, COLUMN_SIZE,
    LEAVES_MAX, NAME_SIZE, TEXT_MAX,
};
use weighpick::sheet::{
    holds, project_into, ANSWER_LITERALS_MAX, CONTENT_MAX, LITERALS_MAX, RECORD_SIZE, SHEET_BUFFER,
    VALUE_BUFFER,
};
use weighpick::summary::{test_summary, SUMMARY_SIZE, VERDICT_BUFFER};
use weighpick::{Columns, Filter, Leaf, Predicate, Refusal, Summary, Transform, Type, Verdict};

const PAGE: &str = include_str!("../../../docs/FORMAT.md");

/// The lines of a section.
fn section(heading: &str) -> impl Iterator<Item = &'static str> {
    let heading = format!("## {heading}");
    let lines = PAGE.lines().skip_while(move |line| *line != heading);
    lines.skip(1).take_while(|line| !line.starts_with("## "))
}

/// The records of an example, in their order; bytes that are not shown are zero.
fn records(heading: &str) -> Vec<[u8; RECORD_SIZE]> {
    let lines = section(heading).filter_map(|line| {
        let line = line.strip_prefix("    ")?;
        // What it is stands before two spaces, and the bytes are pairs of digits up to the words behind them.
        let bytes = line.split_once("  ")?.1.split_whitespace();
        let bytes = bytes.take_while(|word| word.len() == 2);
        Some(bytes.map_while(|word| u8::from_str_radix(word, 16).ok()))
    });
    lines
        .map(|bytes| {
            let mut record = [0; RECORD_SIZE];
            record
                .iter_mut()
                .zip(bytes)
                .for_each(|(to, byte)| *to = byte);
            record
        })
        .collect()
}

/// The block of texts that follows a line of the section on texts, which starts with these words.
fn texts(before: &str) -> Vec<&'static str> {
    let lines = section("The text of a filter").skip_while(|line| !line.starts_with(before));
    let block = lines.skip(2).map_while(|line| line.strip_prefix("    "));
    block.collect()
}

/// A size with a comma after its thousands.
fn in_numerals(size: usize) -> String {
    format!("{},{:03}", size / 1000, size % 1000)
}

/// The page has sizes in numerals, for readers; this holds them to the constants.
#[test]
fn the_sizes() {
    let (buffer, text) = (in_numerals(SHEET_BUFFER), in_numerals(TEXT_MAX));
    let leaf = format!("| 1 to {} | up to {LITERALS_MAX} |", 1 + LITERALS_MAX);
    let answer = format!(
        "| 1 to {} | up to {ANSWER_LITERALS_MAX} |",
        1 + ANSWER_LITERALS_MAX
    );
    let sizes = [
        format!("fewer than {buffer} bytes, or fewer than {VALUE_BUFFER} for a value or {VERDICT_BUFFER} for a verdict"),
        format!(
            "{text} bytes, or the filter more than {LEAVES_MAX} leaves or {BRACKETS_MAX} open brackets"
        ),
        format!("records of {RECORD_SIZE} bytes"),
        format!("| {} to {} | content", RECORD_SIZE - CONTENT_MAX, RECORD_SIZE - 1),
        format!("| to be projected {leaf}"),
        format!("| for the holds-test {answer}"),
        format!("| as an answer {answer}"),
        format!("| String | 0 to {CONTENT_MAX} |"),
        format!("| Binary | 0 to {CONTENT_MAX} |"),
        format!("with the count {} and writes", 2 * RECORD_SIZE),
        format!("A column list is 1 to {COLUMNS_MAX} entries of {COLUMN_SIZE} bytes"),
        format!("| 0 to {} | name: 1 to {NAME_SIZE} of the letters", NAME_SIZE - 1),
        format!("| {NAME_SIZE} to {} | a head", COLUMN_SIZE - 1),
        format!("String and Binary, has at most {CONTENT_MAX} bytes"),
        format!("more than {text} bytes is 10"),
        format!("more than {LEAVES_MAX} leaves, or at some place more than {BRACKETS_MAX} brackets open"),
        format!("It has {SUMMARY_SIZE} bytes"),
        format!("| 0 to {} | a value: the lowest", RECORD_SIZE - 1),
        format!("| {RECORD_SIZE} to {} | a value: the highest", 2 * RECORD_SIZE - 1),
        format!("| {} | the type of both", SUMMARY_SIZE - 2),
        format!("| {} | flag", SUMMARY_SIZE - 1),
        format!("as the holds-test does, with up to {ANSWER_LITERALS_MAX} literals"),
    ];
    let page = PAGE.split_whitespace().collect::<Vec<_>>().join(" ");
    for size in sizes {
        assert!(page.contains(&size), "{size}");
    }
}

#[test]
fn the_example() {
    let records = records("An example");
    let [head, literal, answer_head, answer_literal, inside, outside] = records.as_slice() else {
        panic!("six records, and not {}", records.len());
    };
    let sheet = [*head, *literal].concat();
    let answer = [*answer_head, *answer_literal].concat();
    let leaf = Leaf::from_bytes(&sheet).expect("a sheet");
    assert_eq!(leaf.to_string(), "int truncate[10] < 300");
    let mut out = [0; SHEET_BUFFER];
    assert_eq!(project_into(&sheet, &mut out), Ok(Some(&answer[..])));
    let predicate = Predicate::from_bytes(&answer).expect("an answer sheet");
    assert_eq!(predicate.to_string(), "int <= 290");
    assert_eq!(holds(&answer, inside), Ok(true));
    assert_eq!(holds(&answer, outside), Ok(false));
}

#[test]
fn the_example_of_a_filter() {
    let records = records("An example of a filter");
    let [lot, lot_head, grams, grams_head, row_lot, row_grams, file_lot, file_grams] =
        records.as_slice()
    else {
        panic!("eight records, and not {}", records.len());
    };
    let list = [&lot[..NAME_SIZE], lot_head, &grams[..NAME_SIZE], grams_head].concat();
    let columns = Columns::from_bytes(&list).expect("a column list");
    assert!(columns.iter().eq([
        ("lot", Type::String, Transform::Truncate(4)),
        ("grams", Type::Int, Transform::Truncate(10)),
    ]));
    let row = [*row_lot, *row_grams].concat();
    let file = [*file_lot, *file_grams].concat();
    let text = section("The text of a filter").find_map(|line| line.strip_prefix("    "));
    let text = text.expect("a filter in a block").as_bytes();
    assert_eq!(filter_row(&list, text, &row), Ok(true));
    assert_eq!(filter_project(&list, text, &file), Ok(true));
    assert_eq!(filter_strict_project(&list, text, &file), Ok(false));
}

#[test]
fn the_example_of_a_summary() {
    let (sheets, records) = (records("An example"), records("An example of a summary"));
    let [lowest, highest, type_and_flag, other_lowest] = records.as_slice() else {
        panic!("four lines of bytes, and not {}", records.len());
    };
    let answer = [sheets[2], sheets[3]].concat();
    for (lowest, text, verdict) in [
        (lowest, "int 290 to 310, missing", Verdict::Read),
        (other_lowest, "int 300 to 310, missing", Verdict::Skip),
    ] {
        let file = [&lowest[..], highest, &type_and_flag[..2]].concat();
        let read = Summary::from_bytes(&file).expect("a summary");
        assert_eq!(read.to_string(), text);
        assert_eq!(test_summary(&answer, &file), Ok(verdict));
    }
}

#[test]
fn the_texts() {
    let columns = Columns::new([
        ("a", Type::Int, Transform::Identity),
        ("s", Type::String, Transform::Identity),
    ]);
    let columns = columns.expect("two columns");
    let (filters, others) = (texts("These are filters"), texts("and these are 9"));
    assert!(filters.len() > 3 && others.len() > 10);
    for text in filters {
        assert_eq!(Filter::new(&columns, text).check(), Ok(()), "{text}");
    }
    for text in others {
        let refused = Err(Refusal::OutsideGrammar);
        assert_eq!(Filter::new(&columns, text).check(), refused, "{text}");
    }
}
