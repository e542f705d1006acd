//! What the examples have in common: types, transforms and literals as words, and what is done with wrong ones.

// Each example is a program of its own and uses a part of this module.
#![allow(dead_code)]

use std::env;
use std::ffi::OsString;
use std::process::ExitCode;
use std::str::FromStr;

use weighpick::{Literal, ParseError, Transform, Type};

#[cfg(test)]
mod file_tests;
pub mod files;
pub mod filter;
pub mod leaf;
#[cfg(test)]
mod tests;

/// How an empty string or binary is printed, and an empty binary read.
const EMPTY: &str = "-";

/// How a missing value is said and printed.
const MISSING: &str = "missing";

/// What stands between what is asked and the values or files that it is asked of.
const BREAK: &str = "--";

/// The exit status after wrong words.
const WRONG_WORDS: u8 = 2;

/// Prints what is answered to the words that the program was given, how it is used if they ask for it, or what is wrong with them.
pub fn run(usage: &str, answer: impl FnOnce(&[String]) -> Result<String, String>) -> ExitCode {
    let given: Result<Vec<String>, OsString> =
        env::args_os().skip(1).map(OsString::into_string).collect();
    if given.as_ref().is_ok_and(|given| ask_for_help(given)) {
        println!("{usage}");
        return ExitCode::SUCCESS;
    }
    let lines = given
        .map_err(|_| "a word is not UTF-8".to_string())
        .and_then(|given| answer(&given));
    match lines {
        Ok(lines) => {
            print!("{lines}");
            ExitCode::SUCCESS
        }
        Err(wrong) => {
            eprintln!("{wrong}\n{usage}");
            ExitCode::from(WRONG_WORDS)
        }
    }
}

/// Whether the words ask what may be asked: the first is `-h` or `--help`, which is no type and no filter.
fn ask_for_help(words: &[impl AsRef<str>]) -> bool {
    let first = words.first().map(AsRef::as_ref);
    matches!(first, Some("-h" | "--help"))
}

/// The next word.
fn take<'a>(words: &mut impl Iterator<Item = &'a str>, what: &str) -> Result<&'a str, String> {
    words.next().ok_or_else(|| format!("the {what} is missing"))
}

/// A type by its name.
fn column_type(word: &str) -> Result<Type, String> {
    word.parse().map_err(|wrong: ParseError| wrong.to_string())
}

/// A transform by its name; Truncate's width is a word of its own.
fn transform<'a>(words: &mut impl Iterator<Item = &'a str>) -> Result<Transform, String> {
    Ok(match take(words, "transform")? {
        "identity" => Transform::Identity,
        "truncate" => Transform::Truncate(number(take(words, "width")?)?),
        "year" => Transform::Year,
        "month" => Transform::Month,
        "day" => Transform::Day,
        "hour" => Transform::Hour,
        "void" => Transform::Void,
        "unknown" => Transform::Unknown,
        word => return Err(format!("`{word}` is no transform")),
    })
}

/// A literal of a type.
fn literal(column_type: Type, word: &str) -> Result<Literal, String> {
    Ok(match column_type {
        Type::Int => Literal::Int(number(word)?),
        Type::Long => Literal::Long(number(word)?),
        Type::Date => Literal::Date(number(word)?),
        Type::Time => Literal::Time(number(word)?),
        Type::Timestamp => Literal::Timestamp(number(word)?),
        Type::Timestamptz => Literal::Timestamptz(number(word)?),
        Type::TimestampNs => Literal::TimestampNs(number(word)?),
        Type::TimestamptzNs => Literal::TimestamptzNs(number(word)?),
        Type::String => Literal::string(word),
        Type::Binary => Literal::binary(bytes(word)?),
    })
}

/// A number in decimal.
fn number<N: FromStr>(word: &str) -> Result<N, String> {
    word.parse()
        .map_err(|_| format!("`{word}` is no number, or none that fits"))
}

/// Bytes in hexadecimal.
fn bytes(word: &str) -> Result<Vec<u8>, String> {
    if word == EMPTY {
        return Ok(Vec::new());
    }
    let wrong = || format!("`{word}` is not hexadecimal");
    let digits: Option<Vec<u32>> = word.chars().map(|c| c.to_digit(16)).collect();
    let digits = digits.filter(|d| !d.is_empty() && d.len() % 2 == 0);
    let pairs = digits.ok_or_else(wrong)?;
    // Two digits are below 256.
    Ok(pairs
        .chunks_exact(2)
        .map(|pair| (16 * pair[0] + pair[1]) as u8)
        .collect())
}

/// A number in decimal, a string or binary in hexadecimal.
fn text(literal: &Literal) -> String {
    match literal {
        Literal::Int(v) | Literal::Date(v) => v.to_string(),
        Literal::Long(v)
        | Literal::Time(v)
        | Literal::Timestamp(v)
        | Literal::Timestamptz(v)
        | Literal::TimestampNs(v)
        | Literal::TimestamptzNs(v) => v.to_string(),
        Literal::String(text) => hexadecimal(text.as_bytes()),
        Literal::Binary(bytes) => hexadecimal(bytes),
    }
}

/// Lower-case hexadecimal; `-` for no bytes.
fn hexadecimal(bytes: &[u8]) -> String {
    if bytes.is_empty() {
        return EMPTY.to_string();
    }
    bytes.iter().map(|byte| format!("{byte:02x}")).collect()
}
