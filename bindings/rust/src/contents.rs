//! The content of a literal as text: a number in decimal, a string in quotation marks, a binary in hexadecimal after `0x`.

use std::fmt::{self, Display, Formatter};
use std::str::FromStr;

use crate::{Literal, Type};

/// What stands before the digits of a binary.
const HEXADECIMAL: &str = "0x";

/// A literal's content, to be written.
pub(crate) struct Content<'a>(pub(crate) &'a Literal);

impl Display for Content<'_> {
    fn fmt(&self, f: &mut Formatter<'_>) -> fmt::Result {
        match self.0 {
            Literal::Int(v) | Literal::Date(v) => write!(f, "{v}"),
            Literal::Long(v)
            | Literal::Time(v)
            | Literal::Timestamp(v)
            | Literal::Timestamptz(v)
            | Literal::TimestampNs(v)
            | Literal::TimestamptzNs(v) => write!(f, "{v}"),
            // With Rust's escapes, so that it stays on one line.
            Literal::String(text) => write!(f, "{text:?}"),
            Literal::Binary(bytes) => {
                f.write_str(HEXADECIMAL)?;
                bytes.iter().try_for_each(|byte| write!(f, "{byte:02x}"))
            }
        }
    }
}

/// The literal of a type whose content stands at the start of a text, and the rest of the text.
pub(crate) fn take_literal(column_type: Type, text: &str) -> Option<(Literal, &str)> {
    if column_type == Type::String {
        let (content, rest) = take_string(text)?;
        return Some((Literal::String(content), rest));
    }
    let (word, rest) = text.split_at(text.find([' ', ',', ')']).unwrap_or(text.len()));
    let literal = match column_type {
        Type::Int => Literal::Int(number(word)?),
        Type::Long => Literal::Long(number(word)?),
        Type::Date => Literal::Date(number(word)?),
        Type::Time => Literal::Time(number(word)?),
        Type::Timestamp => Literal::Timestamp(number(word)?),
        Type::Timestamptz => Literal::Timestamptz(number(word)?),
        Type::TimestampNs => Literal::TimestampNs(number(word)?),
        Type::TimestamptzNs => Literal::TimestamptzNs(number(word)?),
        Type::String | Type::Binary => Literal::Binary(bytes(word)?),
    };
    Some((literal, rest))
}

fn number<N: FromStr>(word: &str) -> Option<N> {
    word.parse().ok()
}

/// The bytes that pairs of hexadecimal digits say.
fn bytes(word: &str) -> Option<Vec<u8>> {
    let digits = word.strip_prefix(HEXADECIMAL)?.chars();
    let digits: Vec<u32> = digits.map(|c| c.to_digit(16)).collect::<Option<_>>()?;
    let pairs = digits.chunks(2).map(|pair| match pair {
        // Two digits are below 256.
        [high, low] => Some((16 * high + low) as u8),
        _ => None,
    });
    pairs.collect()
}

/// The string in quotation marks at the start of a text, and the rest of the text.
fn take_string(text: &str) -> Option<(String, &str)> {
    let mut content = String::new();
    let mut rest = text.strip_prefix('"')?;
    loop {
        let (letter, after) = match take_letter(rest)? {
            ('"', after) => return Some((content, after)),
            ('\\', after) => take_escaped(after)?,
            plain => plain,
        };
        content.push(letter);
        rest = after;
    }
}

/// The first letter of a text, and the rest.
fn take_letter(text: &str) -> Option<(char, &str)> {
    let mut letters = text.chars();
    Some((letters.next()?, letters.as_str()))
}

/// The letter that Rust writes so after a backslash, and the rest.
fn take_escaped(text: &str) -> Option<(char, &str)> {
    let (letter, rest) = take_letter(text)?;
    let letter = match letter {
        'n' => '\n',
        'r' => '\r',
        't' => '\t',
        '0' => '\0',
        '\\' | '"' | '\'' => letter,
        'u' => {
            let (code, rest) = rest.strip_prefix('{')?.split_once('}')?;
            let code = u32::from_str_radix(code, 16).ok()?;
            return Some((char::from_u32(code)?, rest));
        }
        _ => return None,
    };
    Some((letter, rest))
}
