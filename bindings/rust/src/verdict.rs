//! Verdicts: what the test of a summary says of a file.

use std::fmt::{self, Display, Formatter};

/// What a predicate says of a file by its summary. Of strings and binaries [`Whole`](Verdict::Whole) is never said.
///
/// By a leaf it is about the values of the file themselves. By the predicate of a projection, and a summary of partition values, it
/// is about rows in part: [`Skip`](Verdict::Skip) by an inclusive predicate says that no row of the file meets the leaf, and
/// [`Whole`](Verdict::Whole) by a strict one that all do; of files of older writers, by the one of
/// [`Leaf::strict_project_older`](crate::Leaf::strict_project_older). [`Picker::pick_summary`](crate::Picker::pick_summary) goes by
/// both.
#[derive(Clone, Copy, Debug, PartialEq, Eq, Hash)]
#[repr(u8)]
pub enum Verdict {
    /// No value that the file may hold is accepted.
    Skip = 0,
    /// Some may be.
    Read = 1,
    /// All of them are.
    Whole = 2,
}

impl Verdict {
    /// All verdicts, by number.
    pub const ALL: [Verdict; 3] = [Verdict::Skip, Verdict::Read, Verdict::Whole];

    /// Document 02's number, the byte that is written.
    #[must_use]
    pub fn number(self) -> u8 {
        self as u8
    }

    /// The verdict with one of document 02's numbers.
    #[inline]
    #[must_use]
    pub fn from_number(number: u8) -> Option<Verdict> {
        Verdict::ALL.get(usize::from(number)).copied()
    }
}

/// `skip`, `read` or `whole`.
impl Display for Verdict {
    fn fmt(&self, f: &mut Formatter<'_>) -> fmt::Result {
        f.write_str(match self {
            Verdict::Skip => "skip",
            Verdict::Read => "read",
            Verdict::Whole => "whole",
        })
    }
}
