//! What the words say, and what is printed for them.

use weighpick::sheet::{CONTENT_MAX, LITERALS_MAX};

use super::ask_for_help;
use super::filter::asked;
use super::leaf::{leaf, lines};

/// What is printed for the words of a command line without quotes.
fn printed(words: &str) -> String {
    let words: Vec<&str> = words.split_whitespace().collect();
    lines(&leaf(&words).unwrap_or_else(|wrong| panic!("{words:?}: {wrong}")))
}

/// What is wrong with the words.
fn wrong(words: &str) -> String {
    let words: Vec<&str> = words.split_whitespace().collect();
    leaf(&words).expect_err("wrong words")
}

#[test]
fn the_lines_of_document_01() {
    assert_eq!(
        printed("int truncate 10 < 300"),
        "inclusive 0 202 290\nstrict 0 201 300\n"
    );
}

#[test]
fn operators_of_every_kind() {
    assert_eq!(
        printed("string truncate 3 starts-with abc"),
        "inclusive 0 205 616263\nstrict 0 205 616263\n"
    );
    assert_eq!(
        printed("timestamp day in 0 86400000000"),
        "inclusive 0 301 0 1\nstrict 1\n"
    );
    assert_eq!(
        printed("date month is-null"),
        "inclusive 0 101\nstrict 0 101\n"
    );
}

#[test]
fn literals_of_every_kind() {
    assert_eq!(
        printed("long identity >= -9223372036854775808"),
        "inclusive 0 204 -9223372036854775808\nstrict 0 204 -9223372036854775808\n"
    );
    assert_eq!(
        printed("binary identity not-in 00ff - 0A"),
        "inclusive 0 302 - 00ff 0a\nstrict 0 302 - 00ff 0a\n"
    );
    assert_eq!(
        printed("string truncate 0 = é"),
        "inclusive 0 205 -\nstrict 1\n"
    );
}

#[test]
fn refusals_print_their_number() {
    assert_eq!(
        printed("int truncate 10 < -2147483640"),
        "inclusive 8\nstrict 0 201 -2147483640\n"
    );
    assert_eq!(printed("time year is-null"), "inclusive 5\nstrict 5\n");
    assert_eq!(printed("int void in"), "inclusive 1\nstrict 1\n");
}

#[test]
fn wrong_words_are_named() {
    assert_eq!(wrong(""), "the type is missing");
    assert_eq!(wrong("float identity is-null"), "`float` is no type");
    assert_eq!(wrong("int bucket 4 = 1"), "`bucket` is no transform");
    assert_eq!(wrong("int truncate"), "the width is missing");
    assert_eq!(wrong("int year"), "the operator is missing");
    assert_eq!(wrong("int year == 1"), "`==` is no operator");
    assert_eq!(wrong("int year ="), "= does not take 0 literals");
    assert_eq!(
        wrong("int year is-null 1"),
        "IS NULL does not take 1 literals"
    );
    let too_large = "`2147483648` is no number, or none that fits";
    assert_eq!(wrong("int year = 2147483648"), too_large);
    assert_eq!(wrong("binary identity = abc"), "`abc` is not hexadecimal");
    assert_eq!(wrong("binary identity = zz"), "`zz` is not hexadecimal");
}

#[test]
fn limits_are_named() {
    let long = format!("string identity = {}", "a".repeat(CONTENT_MAX + 1));
    let expected = format!(
        "a literal has {} bytes, at most {CONTENT_MAX} fit",
        CONTENT_MAX + 1
    );
    assert_eq!(wrong(&long), expected);
    let many = format!("int identity in {}", "7 ".repeat(LITERALS_MAX + 1));
    assert_eq!(wrong(&many), format!("more than {LITERALS_MAX} literals"));
}

#[test]
fn help_is_asked_for_first() {
    for (words, expected) in [
        (&["--help"][..], true),
        (&["-h"], true),
        (&[], false),
        (&["string", "identity", "=", "--help"], false),
    ] {
        assert_eq!(ask_for_help(words), expected, "{words:?}");
    }
}

/// What is printed for a filter and the words that follow it on a command line, or what is wrong with them.
fn answered(text: &str, words: &str) -> Result<String, String> {
    let words: Vec<&str> = [text].into_iter().chain(words.split_whitespace()).collect();
    asked(&words)?.lines()
}

/// The columns of document 02's example.
const COLUMNS: &str = "lot=string:truncate:4 grams=int:truncate:10";

/// What its filter is answered of a lot and grams.
fn example(values: &str) -> Result<String, String> {
    let text = "lot startswith 'ab' and not (grams < 300 or grams = 500)";
    answered(text, &format!("{COLUMNS} -- {values}"))
}

#[test]
fn the_lines_of_a_filter() {
    let lines = |row, grams, inclusive, strict| {
        let partition = format!("partition 0 61623132 {grams}");
        Ok(format!(
            "row {row}\n{partition}\ninclusive {inclusive}\nstrict {strict}\n"
        ))
    };
    assert_eq!(example("ab12x 317"), lines(0, "310", 0, 0));
    assert_eq!(example("ab12x 500"), lines(1, "500", 0, 1));
    assert_eq!(example("ab12x -1"), lines(1, "-10", 1, 1));
    assert_eq!(example("ab12x missing"), lines(1, "missing", 1, 1));
    let others = "row 0\npartition 0 missing\ninclusive 0\nstrict 0\n";
    let lot = "lot=string:truncate:4 -- missing";
    assert_eq!(answered("lot != 'ab12'", lot), Ok(others.to_string()));
}

#[test]
fn refusals_of_a_filter_print_their_number() {
    let answers = |text| answered(text, "a=int:truncate:10 b=binary:identity -- 0 -");
    let lines = |row, inclusive, strict| {
        Ok(format!(
            "row {row}\npartition 0 0 -\ninclusive {inclusive}\nstrict {strict}\n"
        ))
    };
    assert_eq!(answers("a < 1 and b = ''"), lines(0, 0, 1));
    assert_eq!(answers("a < -2147483640"), lines(1, 8, 1));
    assert_eq!(answers("price < 1"), lines(9, 9, 9));
    assert_eq!(answers(&"(".repeat(4097)), lines(10, 10, 10));
    // A row without partition values.
    let time = answered("t < 1", "t=time:year -- 0");
    assert_eq!(time, Ok("row 0\npartition 5\n".to_string()));
}

#[test]
fn wrong_words_of_a_filter_are_named() {
    let wrong = |text, words| answered(text, words).expect_err("wrong words");
    let nothing: [&str; 0] = [];
    let missing = "the filter is missing".to_string();
    assert_eq!(asked(&nothing).err(), Some(missing));
    assert_eq!(wrong("a<1", "a -- 1"), "`a` is no column");
    assert_eq!(wrong("a<1", "a=float:day -- 1"), "`float` is no type");
    assert_eq!(wrong("a<1", "a=int -- 1"), "the transform is missing");
    assert_eq!(wrong("a<1", "a=int:week -- 1"), "`week` is no transform");
    assert_eq!(wrong("a<1", "a=int:truncate -- 1"), "the width is missing");
    assert_eq!(
        wrong("a<1", "a=int:day:1 -- 1"),
        "`1` is too much of a column"
    );
    assert_eq!(wrong("a<1", "-- 1"), "a column list has one column or more");
    assert_eq!(
        wrong("a<1", "and=int:day -- 1"),
        "`and` is no name: filters use the word"
    );
    let none = "1 values are asked for, one a column, and not 0";
    assert_eq!(wrong("a<1", "a=int:identity"), none);
    assert_eq!(wrong("a<1", "a=int:identity --"), none);
    let two = "1 values are asked for, one a column, and not 2";
    assert_eq!(wrong("a<1", "a=int:identity -- 1 2"), two);
    let number = "`x` is no number, or none that fits";
    assert_eq!(wrong("a<1", "a=int:identity -- x"), number);
    let long = format!("s=string:identity -- {}", "a".repeat(CONTENT_MAX + 1));
    let expected = format!(
        "`s`: a value has {} bytes, at most {CONTENT_MAX} fit",
        CONTENT_MAX + 1
    );
    assert_eq!(wrong("s=''", &long), expected);
}
