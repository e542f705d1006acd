//! What pooling says of two summaries: which ends are those of both files together.

use crate::record::Record;

/// One of the two files whose summaries are pooled.
#[derive(Clone, Copy, Debug, PartialEq, Eq, Hash)]
#[repr(u8)]
pub enum Whose {
    /// The first.
    First = 0,
    /// The second.
    Second = 1,
}

impl Whose {
    /// Both, by number.
    pub const ALL: [Whose; 2] = [Whose::First, Whose::Second];

    /// Its number, as the library says it.
    #[must_use]
    pub fn number(self) -> u64 {
        self as u64
    }

    /// The file with one of the two numbers.
    #[inline]
    #[must_use]
    pub fn from_number(number: u64) -> Option<Whose> {
        match number {
            0 => Some(Whose::First),
            1 => Some(Whose::Second),
            _ => None,
        }
    }
}

/// An end of a pooled summary. It is not copied.
#[derive(Clone, Copy, Debug, PartialEq, Eq, Hash)]
pub struct End<'a> {
    /// The file that it is of.
    pub whose: Whose,
    /// Its record, a part of that file's summary.
    pub record: &'a Record,
}

/// The summary of two files together, as [`pool`](crate::summary::pool) says it. Its bytes are both records, the type, which the two
/// summaries have in common, and the flag.
#[derive(Clone, Copy, Debug, PartialEq, Eq, Hash)]
pub struct Pooled<'a> {
    /// The lower of the lowest ends.
    pub lowest: End<'a>,
    /// The higher of the highest.
    pub highest: End<'a>,
    /// 1 if a missing value occurs in either file, and 2 more if neither has a present one.
    pub flag: u8,
}
