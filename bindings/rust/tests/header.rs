//! The C header has the same numbers, and the same version.

use weighpick::filter::{BRACKETS_MAX, COLUMNS_MAX, COLUMN_SIZE, LEAVES_MAX, NAME_SIZE, TEXT_MAX};
use weighpick::sheet::{
    ANSWER_LITERALS_MAX, CONTENT_MAX, LITERALS_MAX, RECORD_SIZE, SHEET_BUFFER, SHEET_MAX,
    VALUE_BUFFER,
};
use weighpick::summary::{Whose, SUMMARY_SIZE, VERDICT_BUFFER};
use weighpick::{Literal, PredicateOperator, Refusal, Summary, Transform, Type, Value, Verdict};

const HEADER: &str = include_str!("../../c/weighpick.h");

/// The number that the header gives a name, as `NAME = 1,` or `#define NAME 1`, with a comment behind it or none.
fn in_header(name: &str) -> Option<usize> {
    let name = format!("WEIGHPICK_{name}");
    HEADER.lines().find_map(|line| {
        let line = line.trim_start().trim_start_matches("#define ");
        let rest = line.strip_prefix(&name)?.strip_prefix(' ')?;
        let value = rest.split("/*").next()?.trim_start_matches("= ");
        number(value.trim_end_matches([' ', ',']))
    })
}

/// A number; the number of a name of the header; or, in brackets, two of them and an operator, the second in brackets or not.
fn number(text: &str) -> Option<usize> {
    if let Some(name) = text.strip_prefix("WEIGHPICK_") {
        return in_header(name);
    }
    let Some(text) = text.strip_prefix('(') else {
        return text.parse().ok();
    };
    let mut words = text.strip_suffix(')')?.splitn(3, ' ');
    let (first, operator) = (number(words.next()?)?, words.next()?);
    let second = number(words.next()?)?;
    match operator {
        "+" => Some(first + second),
        "-" => Some(first - second),
        "*" => Some(first * second),
        _ => None,
    }
}

/// A Rust name as C writes it: `LessThan` is `LESS_THAN`.
fn c_name(variant: impl std::fmt::Debug) -> String {
    let mut name = String::new();
    for letter in format!("{variant:?}").chars() {
        if letter.is_uppercase() && !name.is_empty() {
            name.push('_');
        }
        name.push(letter.to_ascii_uppercase());
    }
    name
}

/// The version as text and in its three parts is this crate's. The one number that they make is held to its text, since a part that
/// is 0 tells nothing of its factor.
#[test]
fn version() {
    let version = env!("CARGO_PKG_VERSION");
    let part = |name: &str| in_header(name).expect(name);
    let [major, minor, patch] = ["VERSION_MAJOR", "VERSION_MINOR", "VERSION_PATCH"].map(part);
    assert_eq!(format!("{major}.{minor}.{patch}"), version);
    let lines = [
        format!("VERSION \"{version}\""),
        "VERSION_NUMBER (1000000 * WEIGHPICK_VERSION_MAJOR + 1000 * WEIGHPICK_VERSION_MINOR + WEIGHPICK_VERSION_PATCH)".to_string(),
    ];
    for line in lines {
        let line = format!("#define WEIGHPICK_{line}");
        assert!(HEADER.lines().any(|l| l == line), "{line}");
    }
}

/// Every size of the header is here, and is this crate's.
#[test]
fn sizes() {
    let sizes = [
        ("RECORD_SIZE", RECORD_SIZE),
        ("LITERALS_MAX", LITERALS_MAX),
        ("NAME_SIZE", NAME_SIZE),
        ("COLUMNS_MAX", COLUMNS_MAX),
        ("TEXT_MAX", TEXT_MAX),
        ("LEAVES_MAX", LEAVES_MAX),
        ("BRACKETS_MAX", BRACKETS_MAX),
        ("CONTENT_MAX", CONTENT_MAX),
        ("SHEET_MAX", SHEET_MAX),
        ("ANSWER_LITERALS_MAX", ANSWER_LITERALS_MAX),
        ("SHEET_BUFFER", SHEET_BUFFER),
        ("VALUE_BUFFER", VALUE_BUFFER),
        ("VERDICT_BUFFER", VERDICT_BUFFER),
        ("COLUMN_SIZE", COLUMN_SIZE),
        ("SUMMARY_SIZE", SUMMARY_SIZE),
    ];
    let defined = HEADER.lines().filter_map(|line| {
        let name = line.strip_prefix("#define WEIGHPICK_")?.split(' ').next()?;
        let is_size = ["_SIZE", "_MAX", "_BUFFER"].map(|end| name.ends_with(end));
        is_size.contains(&true).then_some(name)
    });
    assert!(defined.eq(sizes.map(|(name, _)| name)));
    for (name, size) in sizes {
        assert_eq!(in_header(name), Some(size), "{name}");
    }
}

#[test]
fn numbers() {
    for operator in PredicateOperator::ALL {
        let number = in_header(&c_name(operator));
        assert_eq!(number, Some(operator.number().into()), "{operator:?}");
    }
    for column_type in Type::ALL {
        let number = in_header(&c_name(column_type));
        assert_eq!(number, Some(column_type.number().into()), "{column_type:?}");
    }
    for refusal in Refusal::ALL {
        let number = in_header(&c_name(refusal));
        assert_eq!(number, Some(refusal.number() as usize), "{refusal:?}");
    }
    for verdict in Verdict::ALL {
        let number = in_header(&c_name(verdict));
        assert_eq!(number, Some(verdict.number().into()), "{verdict:?}");
    }
    for whose in Whose::ALL {
        let number = in_header(&c_name(whose));
        assert_eq!(number, Some(whose.number() as usize), "{whose:?}");
    }
    for (name, number) in [("RESULT", 0), ("YES", 0), ("NONE", 1), ("NO", 1)] {
        assert_eq!(in_header(name), Some(number), "{name}");
    }
}

#[test]
fn transforms() {
    assert_eq!(in_header("TRUNCATE"), Some(1));
    for number in (0..=u8::MAX).filter(|&number| number != 1) {
        if let Some(transform) = Transform::from_numbers(number, 0) {
            let in_header = in_header(&c_name(transform));
            assert_eq!(in_header, Some(number.into()), "{transform:?}");
        }
    }
}

/// The parts of a summary that the header names lie where this crate writes them.
#[test]
fn parts_of_a_summary() {
    let at = |name| in_header(name).expect(name);
    let literals = [Literal::Long(i64::MIN), Literal::Long(i64::MAX)];
    let [lowest, highest] = &literals;
    let file = Summary::between(lowest, highest).expect("two values of one type");
    for (name, end) in [("LOWEST_AT", lowest), ("HIGHEST_AT", highest)] {
        let record = Value::from(end.clone()).to_record(Type::Long);
        let bytes = &file.as_bytes()[at(name)..][..RECORD_SIZE];
        assert_eq!(record.as_ref().map(|r| &r[..]), Ok(bytes), "{name}");
    }
    let type_and_flag = |file: &Summary| {
        let place = |name| usize::from(file.as_bytes()[at(name)]);
        (place("SUMMARY_TYPE_AT"), place("FLAG_AT"))
    };
    let (missing, none) = (at("HAS_MISSING"), at("NONE_PRESENT"));
    assert_eq!(type_and_flag(&file), (at("LONG"), 0));
    assert_eq!(
        type_and_flag(&file.with_missing(true)),
        (at("LONG"), missing)
    );
    let empty = Summary::empty(Type::Binary);
    assert_eq!(type_and_flag(&empty), (at("BINARY"), none));
    let both = type_and_flag(&empty.with_missing(true));
    assert_eq!(both, (at("BINARY"), none + missing));
}
