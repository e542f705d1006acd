//! Filters: a text over a list of columns, asked of a row and of partition values.

use std::fmt::{self, Debug, Formatter};

use crate::record::RECORD_SIZE;
use crate::routines::{filter_project, filter_row, filter_strict_project};
use crate::rows::missing_records;
use crate::{Columns, Partition, Pick, Refusal, Row};

/// The most bytes of a filter's text.
pub const TEXT_MAX: usize = 4096;

/// The most leaves of a filter.
pub const LEAVES_MAX: usize = 32;

/// The most brackets of a filter that are open at one place.
pub const BRACKETS_MAX: usize = 16;

/// A text over a list of columns, as a chef types it: leaves with `and`, `or`, `not` and brackets between them.
///
/// A leaf is a column's name, one of `<`, `<=`, `>`, `>=`, `=`, `!=` and `startswith`, and a literal: a whole number, or text in
/// single quotes. `not` binds tightest, then `and`, then `or`. `docs/FORMAT.md` in the repository has all of the grammar.
///
/// A missing value counts as different from every literal, and is neither below nor above one: it meets `!=`, under `not` also
/// `=` and `startswith`, and none of `<`, `<=`, `>` and `>=`, under `not` or without it.
///
/// The text is handed to the library as it is, with every question, so that making a filter costs nothing; [`check`](Filter::check)
/// says at once whether the library will take it. No question takes memory from the heap.
///
/// ```
/// use weighpick::{Columns, Filter, Literal, Pick, Refusal, Transform, Type, Value};
///
/// // A table that is split by the start of the lot, and by grams in steps of 10.
/// let lot = ("lot", Type::String, Transform::Truncate(4));
/// let grams = ("grams", Type::Int, Transform::Truncate(10));
/// let columns = Columns::new([lot, grams])?;
///
/// let filter = Filter::new(&columns, "lot startswith 'ab' and not (grams < 300 or grams = 500)");
/// filter.check()?;
///
/// // A file, by its partition values.
/// let file = |lot: &str, grams| columns.partition(&[lot.into(), Literal::Int(grams).into()]);
/// assert_eq!(filter.pick(&file("ab12", 310)?), Pick::Whole);
/// assert_eq!(filter.pick(&file("ab12", 500)?), Pick::Read);
/// assert_eq!(filter.pick(&file("ab12", 290)?), Pick::Skip);
///
/// // A row of a file that is read and filtered.
/// assert!(filter.row(&columns.row(&["ab12x".into(), Literal::Int(501).into()])?)?);
/// assert!(!filter.row(&columns.row(&["ab12x".into(), Value::Missing])?)?);
///
/// let others = Filter::new(&columns, "lot != 'ab12'");
/// assert!(others.row(&columns.row(&[Value::Missing, Literal::Int(501).into()])?)?);
///
/// let other = Filter::new(&columns, "price < 300");
/// assert_eq!(other.check(), Err(Refusal::OutsideGrammar));
/// # Ok::<(), weighpick::Error>(())
/// ```
#[derive(Clone, Copy, PartialEq, Eq, Hash)]
pub struct Filter<'a> {
    columns: &'a Columns,
    text: &'a [u8],
}

impl<'a> Filter<'a> {
    /// A text over columns. It may have any bytes, as a literal of a Binary column has.
    pub fn new(columns: &'a Columns, text: &'a (impl AsRef<[u8]> + ?Sized)) -> Filter<'a> {
        let text = text.as_ref();
        Filter { columns, text }
    }

    /// The columns.
    #[must_use]
    pub fn columns(&self) -> &'a Columns {
        self.columns
    }

    /// The text.
    #[must_use]
    pub fn text(&self) -> &'a [u8] {
        self.text
    }

    /// Whether the text is a filter over the columns. That hangs on no value, so that whoever typed the text can be told before a
    /// file is looked at; but not what is wrong with it, nor where.
    ///
    /// # Errors
    ///
    /// [`Refusal::OutsideGrammar`] or [`Refusal::TooLarge`].
    pub fn check(&self) -> Result<(), Refusal> {
        let values = &missing_records()[..RECORD_SIZE * self.columns.iter().len()];
        filter_row(self.columns.as_bytes(), self.text, values).map(|_| ())
    }

    /// Whether a row meets the filter.
    ///
    /// # Errors
    ///
    /// As for [`check`](Filter::check), and [`Refusal::Malformed`] for a row of columns of other types.
    pub fn row(&self, row: &Row) -> Result<bool, Refusal> {
        filter_row(self.columns.as_bytes(), self.text, row.of(self.columns)?)
    }

    /// The inclusive question: `Ok(false)` only where no row of a file with these partition values meets the filter. After a refusal
    /// the file has to be read; [`pick`](Filter::pick) sees to it.
    ///
    /// # Errors
    ///
    /// As for [`row`](Filter::row), and where the projection of a leaf is refused; the leftmost such leaf's refusal is the whole's.
    pub fn project(&self, partition: &Partition) -> Result<bool, Refusal> {
        let values = partition.of(self.columns)?;
        filter_project(self.columns.as_bytes(), self.text, values)
    }

    /// The strict question: `Ok(true)` only where every row of a file with these partition values meets the filter.
    ///
    /// This does not hold of files of older writers ([`Leaf::strict_project_older`](crate::Leaf::strict_project_older)) where the
    /// filter names a column under Year, Month or, of Timestamp alone, Day; what [`project`](Filter::project) says of them does.
    ///
    /// # Errors
    ///
    /// As for [`project`](Filter::project).
    pub fn strict_project(&self, partition: &Partition) -> Result<bool, Refusal> {
        let values = partition.of(self.columns)?;
        filter_strict_project(self.columns.as_bytes(), self.text, values)
    }

    /// What is done with the file of these partition values: it is skipped only after a plain no of the inclusive question, and
    /// taken whole only after a plain yes of the strict one. So no row is lost after a refusal. Of files of older writers, for which
    /// there is [`pick_older`](Filter::pick_older), the second does not hold: one may be taken whole that has other rows too.
    ///
    /// ```
    /// use weighpick::{Columns, Filter, Literal, Pick, Refusal, Transform, Type};
    ///
    /// let columns = Columns::new([("grams", Type::Int, Transform::Truncate(10))])?;
    /// let file = columns.partition(&[Literal::Int(0).into()])?;
    ///
    /// // Below the lowest step there is no partition value.
    /// let filter = Filter::new(&columns, "grams < -2147483640");
    /// assert_eq!(filter.project(&file), Err(Refusal::Overflow));
    /// assert_eq!(filter.pick(&file), Pick::Read);
    /// # Ok::<(), weighpick::Error>(())
    /// ```
    #[must_use]
    pub fn pick(&self, partition: &Partition) -> Pick {
        if self.project(partition) == Ok(false) {
            Pick::Skip
        } else if self.strict_project(partition) == Ok(true) {
            Pick::Whole
        } else {
            Pick::Read
        }
    }

    /// What is done with the file of these partition values where older writers may have written it: it is skipped only after a
    /// plain no of the inclusive question, and never taken whole, since filters have no strict question for such files.
    ///
    /// ```
    /// use weighpick::{Columns, Filter, Literal, Pick, Transform, Type};
    ///
    /// let columns = Columns::new([("day", Type::Date, Transform::Year)])?;
    /// let filter = Filter::new(&columns, "day >= 0");
    /// let file = |year| columns.partition(&[Literal::Int(year).into()]);
    /// assert_eq!(filter.pick(&file(0)?), Pick::Whole);
    /// assert_eq!(filter.pick_older(&file(0)?), Pick::Read); // a row of 1969 may lie there
    /// assert_eq!(filter.pick_older(&file(-1)?), Pick::Skip);
    /// # Ok::<(), weighpick::Error>(())
    /// ```
    #[must_use]
    pub fn pick_older(&self, partition: &Partition) -> Pick {
        match self.project(partition) {
            Ok(false) => Pick::Skip,
            _ => Pick::Read,
        }
    }
}

/// The text, with escapes for what is not ASCII.
impl Debug for Filter<'_> {
    fn fmt(&self, f: &mut Formatter<'_>) -> fmt::Result {
        f.debug_struct("Filter")
            .field("columns", self.columns)
            .field("text", &format_args!("\"{}\"", self.text.escape_ascii()))
            .finish()
    }
}
