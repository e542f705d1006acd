//! Why the library refuses: document 01's answers 2 to 8, 9 and 10, which filters add, and 11 and 12, which summaries add.

use std::error::Error;
use std::fmt::{self, Display, Formatter};

/// A refusal. Nothing was written.
///
/// ```
/// use weighpick::{Literal, Refusal, Transform, Type};
///
/// // A time of day has no year.
/// let refused = Transform::Year.transform_literal(Type::Time, &Literal::Time(0).into());
/// assert_eq!(refused, Err(Refusal::NoResultType.into()));
/// assert_eq!(Refusal::NoResultType.number(), 5);
/// ```
#[derive(Clone, Copy, Debug, PartialEq, Eq, Hash)]
#[non_exhaustive]
#[repr(u32)]
pub enum Refusal {
    /// The result buffer is under [`SHEET_BUFFER`](crate::sheet::SHEET_BUFFER) bytes, for one value under
    /// [`VALUE_BUFFER`](crate::sheet::VALUE_BUFFER), or for a verdict under
    /// [`VERDICT_BUFFER`](crate::summary::VERDICT_BUFFER).
    BufferTooSmall = 2,
    /// A sheet, a value, a summary or a column list against the rules of its format.
    Malformed = 3,
    /// A String literal, value or end is not UTF-8.
    NotUtf8 = 4,
    /// The transform has no result type for the column's type.
    NoResultType = 5,
    /// The crate iceberg answers `ErrorKind::DataInvalid`.
    DataInvalid = 6,
    /// The transform is [`Transform::Unknown`](crate::Transform::Unknown); the crate iceberg answers
    /// `ErrorKind::FeatureUnsupported`.
    FeatureUnsupported = 7,
    /// A number leaves its type; the crate iceberg panics or wraps there.
    Overflow = 8,
    /// A text that is no filter, that names a column which is not in the list, or a literal of which does not fit its column.
    OutsideGrammar = 9,
    /// A text of more than [`TEXT_MAX`](crate::filter::TEXT_MAX) bytes, or a filter of more than
    /// [`LEAVES_MAX`](crate::filter::LEAVES_MAX) leaves or [`BRACKETS_MAX`](crate::filter::BRACKETS_MAX) open brackets.
    TooLarge = 10,
    /// A summary whose lowest is above its highest, or whose type is not the sheet's.
    WrongSummary = 11,
    /// Two summaries that were to be pooled have different types.
    DifferentTypes = 12,
}

impl Refusal {
    /// All refusals, by number. A slice, since a later version may have more.
    pub const ALL: &'static [Refusal] = &[
        Refusal::BufferTooSmall,
        Refusal::Malformed,
        Refusal::NotUtf8,
        Refusal::NoResultType,
        Refusal::DataInvalid,
        Refusal::FeatureUnsupported,
        Refusal::Overflow,
        Refusal::OutsideGrammar,
        Refusal::TooLarge,
        Refusal::WrongSummary,
        Refusal::DifferentTypes,
    ];

    /// Document 01's number.
    #[must_use]
    pub fn number(self) -> u32 {
        self as u32
    }

    /// The refusal with one of the documents' numbers.
    #[must_use]
    pub fn from_number(number: u32) -> Option<Refusal> {
        let mut all = Refusal::ALL.iter().copied();
        all.find(|refusal| refusal.number() == number)
    }
}

impl Display for Refusal {
    fn fmt(&self, f: &mut Formatter<'_>) -> fmt::Result {
        f.write_str(match self {
            Refusal::BufferTooSmall => "the result buffer is too small",
            Refusal::Malformed => "malformed sheet, value, summary or column list",
            Refusal::NotUtf8 => "a string is not UTF-8",
            Refusal::NoResultType => "the transform does not apply to the column's type",
            Refusal::DataInvalid => {
                "no such partition value: the calendar or the width is exceeded"
            }
            Refusal::FeatureUnsupported => "the transform is not known here",
            Refusal::Overflow => "a number leaves the range of its type",
            Refusal::OutsideGrammar => "the text is no filter over these columns",
            Refusal::TooLarge => "the filter has too many bytes, leaves or open brackets",
            Refusal::WrongSummary => {
                "the summary's lowest is above its highest, or its type is not the sheet's"
            }
            Refusal::DifferentTypes => "the two summaries have different types",
        })
    }
}

impl Error for Refusal {}
