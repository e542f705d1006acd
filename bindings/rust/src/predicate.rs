//! Predicates: what a projection answers, to be tested on partition values.

use crate::record::{Record, EMPTY};
use crate::routines::{meets, test_summary};
use crate::typed_sheet::Sheet;
use crate::{
    Literal, PredicateOperator, Refusal, Summary, Transform, Type, Value, ValueError, Verdict,
};

/// An operator with its literals on a partition field.
///
/// ```
/// use weighpick::{Leaf, Literal, PredicateOperator, Transform, Value};
///
/// let since = Leaf::binary(PredicateOperator::GreaterThanOrEq, Transform::Month, &Literal::Date(31))?;
/// let read = since.project()?.expect(">= has an inclusive projection");
///
/// assert!(read.holds(&Literal::Int(1).into())?); // February 1970
/// assert!(!read.holds(&Literal::Int(0).into())?); // January
/// assert!(!read.holds(&Value::Missing)?);
/// assert_eq!(read.to_string(), "int >= 1");
/// # Ok::<(), weighpick::Error>(())
/// ```
#[derive(Clone, Debug, PartialEq, Eq, Hash)]
pub struct Predicate {
    sheet: Sheet,
}

impl Predicate {
    /// The predicate of an answer sheet that the library wrote; it is proved to be well-formed.
    #[inline]
    pub(crate) fn answered(answer: &[u8]) -> Predicate {
        let sheet = Sheet::answered(answer);
        Predicate { sheet }
    }

    /// The predicate of a sheet under Identity that has as many literals as its operator takes.
    pub(crate) fn from_sheet(sheet: Sheet) -> Predicate {
        Predicate { sheet }
    }

    /// Reads an answer sheet, as [`as_bytes`](Predicate::as_bytes) gives it or as a routine wrote it to a buffer.
    ///
    /// # Errors
    ///
    /// [`Refusal::Malformed`], as of a sheet under a transform, which is no answer, and [`Refusal::NotUtf8`].
    pub fn from_bytes(bytes: &[u8]) -> Result<Predicate, Refusal> {
        let sheet = Sheet::from_bytes(bytes)?;
        if sheet.transform() != Transform::Identity {
            return Err(Refusal::Malformed);
        }
        Ok(Predicate { sheet })
    }

    /// Its answer sheet.
    #[must_use]
    pub fn as_bytes(&self) -> &[u8] {
        self.sheet.as_bytes()
    }

    /// Its operator.
    #[must_use]
    pub fn operator(&self) -> PredicateOperator {
        self.sheet.operator()
    }

    /// The type of the partition values: the transform's result type.
    #[must_use]
    pub fn column_type(&self) -> Type {
        self.sheet.column_type()
    }

    /// Its literals; a projection gives them ascending and without repeats.
    #[must_use]
    pub fn literals(&self) -> impl ExactSizeIterator<Item = Literal> + '_ {
        self.sheet.literals()
    }

    /// Whether it accepts a partition value.
    ///
    /// # Errors
    ///
    /// A value of another type than the partition values', and a String or Binary that is too long for a record.
    pub fn holds(&self, partition_value: &Value) -> Result<bool, ValueError> {
        let mut record = EMPTY;
        partition_value.put(self.column_type(), &mut record)?;
        Ok(self.holds_record(&record))
    }

    /// Whether it accepts the partition value in a record that [`Value::to_record`] wrote for its type.
    pub(crate) fn holds_record(&self, partition_value: &Record) -> bool {
        meets(self.as_bytes(), partition_value)
    }

    /// What it says of a file by the summary of its partition values.
    ///
    /// ```
    /// use weighpick::{Leaf, Literal, Summary, Verdict};
    ///
    /// // grams < 295, in a table split by grams in steps of 10
    /// let leaf: Leaf = "int truncate[10] < 295".parse()?;
    /// let read = leaf.project()?.expect("< has an inclusive projection"); // <= 290
    /// let file = |lowest, highest| Summary::between(&Literal::Int(lowest), &Literal::Int(highest));
    /// assert_eq!(read.test_summary(&file(300, 450)?)?, Verdict::Skip); // no row of it meets the leaf
    /// assert_eq!(read.test_summary(&file(290, 450)?)?, Verdict::Read);
    /// assert_eq!(read.test_summary(&file(0, 290)?)?, Verdict::Whole); // which says nothing of its rows: 297 lies at 290
    /// # Ok::<(), weighpick::Error>(())
    /// ```
    ///
    /// # Errors
    ///
    /// As for [`Leaf::test_summary`](crate::Leaf::test_summary).
    #[inline]
    pub fn test_summary(&self, summary: &Summary) -> Result<Verdict, Refusal> {
        test_summary(self.as_bytes(), summary.as_bytes())
    }
}
