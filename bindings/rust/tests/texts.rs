//! What is written as text is read back, and other text is refused with a word for it.

mod support;

use std::fmt::Display;
use std::str::FromStr;

use support::sample::Random;
use support::TRANSFORMS;
use weighpick::sheet::{ANSWER_LITERALS_MAX, CONTENT_MAX, LITERALS_MAX};
use weighpick::{Leaf, Literal, Predicate, PredicateOperator, Transform, Type, Value};

/// How many leaves are tried.
const LEAVES: usize = 10_000;

/// Writes and reads back.
fn again<T: Display + FromStr + PartialEq>(value: &T) -> bool {
    matches!(value.to_string().parse::<T>(), Ok(read) if read == *value)
}

/// What is wrong with a text.
fn wrong<T: FromStr>(text: &str) -> Option<String>
where
    T::Err: Display,
{
    text.parse::<T>().err().map(|error| error.to_string())
}

#[test]
fn types_transforms_and_operators() {
    assert!(Type::ALL.iter().all(again));
    assert!(TRANSFORMS.iter().all(again));
    assert!(PredicateOperator::ALL.iter().all(again));
    assert_eq!(wrong::<Type>("INT"), Some("`INT` is no type".to_string()));
    for text in [
        "truncate",
        "truncate[]",
        "truncate[-1]",
        "truncate[1",
        "day[1]",
        "",
        "Day",
    ] {
        let expected = format!("`{text}` is no transform");
        assert_eq!(wrong::<Transform>(text), Some(expected));
    }
    let expected = "`==` is no operator".to_string();
    assert_eq!(wrong::<PredicateOperator>("=="), Some(expected));
}

#[test]
fn literals_and_values() {
    let mut random = Random::new(11);
    for column_type in Type::ALL {
        for _ in 0..200 {
            let literal = random.literal(column_type);
            assert!(again(&literal), "{literal}");
            assert!(again(&Value::from(literal)));
        }
    }
    assert!(again(&Value::Missing));
    assert_eq!(Literal::Timestamp(-1).to_string(), "timestamp -1");
    assert_eq!(Literal::binary([0, 255]).to_string(), "binary 0x00ff");
    assert_eq!(Literal::binary([]).to_string(), "binary 0x");
}

#[test]
fn strings_of_every_kind() {
    for text in [
        "",
        " ",
        "a b",
        "\"",
        "\\",
        "\\\"",
        "a\nb\r\t\0",
        "é€𝄞",
        "\u{301}\u{200b}",
        "', )",
        "0x",
    ] {
        let literal = Literal::from(text);
        assert!(again(&literal), "{literal}");
        let set = [literal.clone(), Literal::from("b")];
        let leaf = Leaf::set(
            PredicateOperator::In,
            Type::String,
            Transform::Identity,
            &set,
        );
        assert!(again(&leaf.expect("a small set")), "{literal}");
    }
    assert_eq!(Literal::from("a\"b").to_string(), r#"string "a\"b""#);
    for text in [
        "string a",
        "string \"a",
        "string \"a\"b",
        r#"string "\x""#,
        r#"string "\u{d800}""#,
    ] {
        assert!(text.parse::<Literal>().is_err(), "{text}");
    }
}

#[test]
fn leaves_and_predicates() {
    let mut random = Random::new(12);
    let mut predicates = 0;
    for _ in 0..LEAVES {
        let leaf = random.leaf();
        assert!(again(&leaf), "{leaf}");
        let answers = [
            leaf.project(),
            leaf.strict_project(),
            leaf.strict_project_older(),
        ];
        for predicate in answers.into_iter().flatten().flatten() {
            assert!(again(&predicate), "{predicate}");
            predicates += 1;
        }
    }
    assert!(predicates > LEAVES / 2);
}

#[test]
fn what_is_written() -> Result<(), weighpick::Error> {
    let leaf: Leaf = "timestamp day IN (-1, 86400000000)".parse()?;
    assert_eq!(leaf.transform(), Transform::Day);
    let read = leaf.project()?.expect("In has an inclusive projection");
    assert_eq!(read.to_string(), "date IN (-1, 0, 1)");
    let leaf: Leaf = "string truncate[2] NOT STARTS WITH \"abc\"".parse()?;
    let strict = leaf.strict_project()?.expect("a strict projection");
    assert_eq!(strict.to_string(), "string NOT STARTS WITH \"ab\"");
    let leaf: Leaf = "date month IS NOT NULL".parse()?;
    assert_eq!(
        leaf.project()?.map(|p| p.to_string()),
        Some("int IS NOT NULL".to_string())
    );
    Ok(())
}

#[test]
fn what_is_no_leaf() {
    for text in [
        "",
        "int",
        "int identity",
        "int identity ",
        "int identity <",
        "int identity < ",
        "int identity <1",
        "int identity < 1 ",
        "int identity < 1, 2",
        "int identity < 2147483648",
        "int identity < \"1\"",
        "int identity IS NULL 1",
        "int identity IS NULL ",
        "int identity IN",
        "int identity IN 1",
        "int identity IN (1",
        "int identity IN (1, )",
        "int identity IN (1,2)",
        "int identity IN (, 1)",
        "binary identity = 0x0",
        "binary identity = 0xzz",
        "binary identity = 00",
    ] {
        assert!(text.parse::<Leaf>().is_err(), "{text}");
    }
    assert_eq!(
        wrong::<Leaf>("float day = 1"),
        Some("`float` is no type".to_string())
    );
    assert_eq!(
        wrong::<Leaf>("int week = 1"),
        Some("`week` is no transform".to_string())
    );
    let long = format!("string identity = \"{}\"", "a".repeat(CONTENT_MAX + 1));
    let expected = format!(
        "a literal has {} bytes, at most {CONTENT_MAX} fit",
        CONTENT_MAX + 1
    );
    assert_eq!(wrong::<Leaf>(&long), Some(expected));
}

#[test]
fn a_predicate_takes_more_literals_than_a_leaf() {
    let numbers: Vec<String> = (0..=ANSWER_LITERALS_MAX).map(|n| n.to_string()).collect();
    let set = |count: usize| format!("int IN ({})", numbers[..count].join(", "));
    let of_leaf = |count| {
        set(count)
            .replace("int", "int identity")
            .parse::<Leaf>()
            .is_ok()
    };
    assert!(of_leaf(LITERALS_MAX) && !of_leaf(LITERALS_MAX + 1));
    let of_predicate = |count| set(count).parse::<Predicate>().is_ok();
    assert!(of_predicate(ANSWER_LITERALS_MAX) && !of_predicate(ANSWER_LITERALS_MAX + 1));
}
