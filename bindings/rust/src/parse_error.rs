//! Why a text could not be read.

use std::error::Error;
use std::fmt::{self, Display, Formatter};

/// A text, or the part of one, that says nothing of the kind that was looked for.
///
/// ```
/// use weighpick::Type;
///
/// let wrong = "float".parse::<Type>().unwrap_err();
/// assert_eq!(wrong.to_string(), "`float` is no type");
/// ```
#[derive(Clone, Debug, PartialEq, Eq, Hash)]
pub struct ParseError {
    text: String,
    what: &'static str,
}

impl ParseError {
    pub(crate) fn new(text: &str, what: &'static str) -> ParseError {
        ParseError {
            text: text.to_string(),
            what,
        }
    }
}

impl Display for ParseError {
    fn fmt(&self, f: &mut Formatter<'_>) -> fmt::Result {
        write!(f, "`{}` is no {}", self.text, self.what)
    }
}

impl Error for ParseError {}
