//! What is done with a file, and with one that two leaves are asked of.

use std::fmt::{self, Display, Formatter};

/// What is done with a file, by its partition value, by its partition values, or by a summary of them.
///
/// Where a search has several leaves, the picks of one file by each of them are joined with [`and`](Pick::and) and
/// [`or`](Pick::or). There is no "not". A missing value meets neither `grams < 300` nor its opposite `grams >= 300`, so that a file
/// which is skipped by the one need not be whole by the other: the [opposite leaf](crate::Leaf::negate) is asked in its place.
///
/// ```
/// use weighpick::{Leaf, Pick, Value};
///
/// let [below, not_below] = ["int truncate[10] < 300", "int truncate[10] >= 300"].map(str::parse::<Leaf>);
/// let (below, not_below) = (below?, not_below?);
/// assert_eq!(below.negate(), not_below);
/// assert_eq!(below.picker().pick(&Value::Missing)?, Pick::Skip);
/// assert_eq!(not_below.picker().pick(&Value::Missing)?, Pick::Skip);
/// # Ok::<(), weighpick::Error>(())
/// ```
#[derive(Clone, Copy, Debug, PartialEq, Eq, Hash)]
pub enum Pick {
    /// No row of it meets the leaf or filter: it is passed over.
    Skip,
    /// Some of its rows may: it is read, and each row is tested.
    Read,
    /// All of its rows do: it is read, and no row need be tested.
    Whole,
}

impl Pick {
    /// All picks, the one of the fewest rows first.
    pub const ALL: [Pick; 3] = [Pick::Skip, Pick::Read, Pick::Whole];

    /// What is done with a file of which this and another pick are known, by two leaves, where both leaves are to be met:
    ///
    /// | and | Skip | Read | Whole |
    /// |---|---|---|---|
    /// | **Skip** | Skip | Skip | Skip |
    /// | **Read** | Skip | Read | Read |
    /// | **Whole** | Skip | Read | Whole |
    ///
    /// ```
    /// use weighpick::{Leaf, Literal, Pick};
    ///
    /// // grams >= 295 and day < 31, in a table that is split by steps of 10 grams and by month
    /// let grams = "int truncate[10] >= 295".parse::<Leaf>()?.picker();
    /// let days = "date month < 31".parse::<Leaf>()?.picker();
    /// for (step, month, expected) in [(300, 0, Pick::Whole), (290, 0, Pick::Read), (300, 1, Pick::Skip)] {
    ///     let by_grams = grams.pick(&Literal::Int(step).into())?;
    ///     assert_eq!(by_grams.and(days.pick(&Literal::Int(month).into())?), expected);
    /// }
    /// # Ok::<(), weighpick::Error>(())
    /// ```
    #[must_use]
    pub const fn and(self, other: Pick) -> Pick {
        match (self, other) {
            (Pick::Skip, _) | (_, Pick::Skip) => Pick::Skip,
            (Pick::Whole, Pick::Whole) => Pick::Whole,
            _ => Pick::Read,
        }
    }

    /// What is done with a file of which this and another pick are known, by two leaves, where one of them is to be met, or both:
    ///
    /// | or | Skip | Read | Whole |
    /// |---|---|---|---|
    /// | **Skip** | Skip | Read | Whole |
    /// | **Read** | Read | Read | Whole |
    /// | **Whole** | Whole | Whole | Whole |
    #[must_use]
    pub const fn or(self, other: Pick) -> Pick {
        match (self, other) {
            (Pick::Whole, _) | (_, Pick::Whole) => Pick::Whole,
            (Pick::Skip, Pick::Skip) => Pick::Skip,
            _ => Pick::Read,
        }
    }
}

/// `skip`, `read` or `whole`.
impl Display for Pick {
    fn fmt(&self, f: &mut Formatter<'_>) -> fmt::Result {
        f.write_str(match self {
            Pick::Skip => "skip",
            Pick::Read => "read",
            Pick::Whole => "whole",
        })
    }
}
