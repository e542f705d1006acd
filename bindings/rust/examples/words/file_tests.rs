//! What the words of a leaf and of files say, and what is printed for them.

use super::files::lines;

/// What is printed for the words of a command line without quotes, or what is wrong with them.
fn printed(words: &str) -> Result<String, String> {
    lines(&words.split_whitespace().collect::<Vec<_>>())
}

/// What is done with files, for a leaf; each file stands in its line.
fn picks(leaf: &str, files: &[(&str, &str)]) {
    let words: Vec<&str> = files.iter().map(|(file, _)| *file).collect();
    let lines = files.iter().map(|(file, pick)| format!("{file} {pick}\n"));
    let expected: String = lines.collect();
    assert_eq!(
        printed(&format!("{leaf} -- {}", words.join(" "))),
        Ok(expected)
    );
}

#[test]
fn a_line_for_each_file() {
    picks(
        "int truncate 10 < 300",
        &[
            ("0..290", "whole"),
            ("0..290,missing", "read"),
            ("290..300", "read"),
            ("300..450", "skip"),
            ("300..450,missing", "skip"),
            ("missing", "skip"),
            ("empty", "skip"),
            ("450..300", "read"), // refused
        ],
    );
    assert_eq!(printed("int truncate 10 < 300 --"), Ok(String::new()));
}

#[test]
fn files_of_every_kind() {
    let lots = [("aa..ab", "skip"), ("abc..abd", "read"), ("..ab,c", "skip")];
    picks("string truncate 3 starts-with abc", &lots);
    let lots = [("-..00", "skip"), ("00ff..0a", "read")];
    picks("binary identity >= 00ff", &lots);
    // Months; two projections of In, of which only the inclusive one has a predicate.
    let months = [("-2..-1", "skip"), ("0..0", "read"), ("0..12", "read")];
    picks("date month in 0 31", &months);
    picks(
        "date month is-null",
        &[("missing", "whole"), ("0..1", "skip")],
    );
    // Lots other than one, with sacks that have none.
    let lots = [
        ("ab12..ab12", "read"),
        ("ab12..ab12,missing", "read"),
        ("missing", "read"),
    ];
    picks("string truncate 4 != ab12", &lots);
    let sevens = [
        ("7..7", "skip"),
        ("7..7,missing", "read"),
        ("8..9,missing", "whole"),
    ];
    picks("int identity != 7", &sevens);
}

#[test]
fn files_in_groups() {
    let below_300 = |groups: &str| printed(&format!("int truncate 10 < 300 {groups}"));
    let expected = "\
        group int 0 to 300: read\n\
        0..290 whole\n\
        290..300 read\n\
        group int 300 to 450, missing: skip\n\
        group int 0 to 290: whole\n\
        0..0 whole\n\
        280..290 whole\n\
        empty skip\n";
    assert_eq!(
        below_300("-- 0..290 290..300 -- 300..310 400..450,missing empty -- 0..0 280..290 empty"),
        Ok(expected.to_string())
    );
    // Both files are skipped one by one, but what is asked for may lie between them.
    let apart = "group int 10 to 30: read\n10..10 skip\n30..30 skip\ngroup int empty: skip\n";
    assert_eq!(
        printed("int identity = 20 -- 10..10 30..30 -- empty empty"),
        Ok(apart.to_string())
    );
    let lots =
        "group string \"aa\" to \"ac\": skip\ngroup string \"abc\" to \"b\": read\nabc..b read\n";
    assert_eq!(
        printed("string truncate 3 starts-with b -- aa..ab ab..ac -- abc..b"),
        Ok(lots.to_string())
    );
}

/// Nothing is skipped that no predicate was asked about: the files are looked at one by one.
#[test]
fn groups_that_are_not_pooled() {
    let expected = "\
        group not pooled: read\n\
        300..450 skip\n\
        450..300 read\n\
        group int 300 to 450: skip\n\
        group not pooled: read\n\
        2..1 read\n";
    assert_eq!(
        printed("int truncate 10 < 300 -- 300..450 450..300 -- 300..450 -- 2..1"),
        Ok(expected.to_string())
    );
    // A group without files.
    let none = "group not pooled: read\ngroup int 0 to 0: whole\n0..0 whole\n";
    assert_eq!(
        printed("int truncate 10 < 300 -- -- 0..0"),
        Ok(none.to_string())
    );
    // There is no type to read the ends in.
    let no_type = "group not pooled: read\na..b read\ngroup not pooled: read\n? read\n";
    assert_eq!(
        printed("time year = 1 -- a..b -- ?"),
        Ok(no_type.to_string())
    );
    // There is no predicate to ask.
    let no_predicate = "group int 0 to 1: read\n0..1 read\ngroup int empty: read\nempty read\n";
    assert_eq!(
        printed("int void = 1 -- 0..1 -- empty"),
        Ok(no_predicate.to_string())
    );
}

#[test]
fn without_a_predicate() {
    let files = [("0..0", "read"), ("missing", "read"), ("empty", "read")];
    picks("int void = 1", &files);
    picks("int truncate 10 < -2147483640", &files);
    // There is no type to read the ends in.
    picks("time year = 1", &[("a..b", "read"), ("?", "read")]);
}

#[test]
fn wrong_words_are_named() {
    let wrong = |words| printed(words).expect_err("wrong words");
    assert_eq!(wrong(""), "the type is missing");
    assert_eq!(wrong("int year = 1"), "the files are missing");
    assert_eq!(
        wrong("int identity = -- 1..2"),
        "= does not take 0 literals"
    );
    for word in [
        "1",
        "1.2",
        "1..2,",
        "1..2,empty",
        "Missing",
        "missing,missing",
    ] {
        let words = format!("int identity = 1 -- {word}");
        assert!(printed(&words).is_err(), "{word}");
    }
    assert_eq!(wrong("int identity = 1 -- 1-2"), "`1-2` is no file");
    assert_eq!(wrong("int identity = 1 -- 1..2 -- 1-2"), "`1-2` is no file");
    let number = "`` is no number, or none that fits";
    assert_eq!(wrong("int identity = 1 -- 1.."), number);
    // A month is an Int.
    let number = "`2147483648` is no number, or none that fits";
    assert_eq!(wrong("timestamp month = 1 -- 0..2147483648"), number);
    let long = format!("string identity = a -- a..{}", "b".repeat(61));
    assert_eq!(wrong(&long), "a value has 61 bytes, at most 60 fit");
}
