//! Leaves: what a filter asks of one column, and how the table is split by it.

use crate::ffi::Question;
use crate::record::{EMPTY, LITERALS_MAX, SHEET_MAX};
use crate::routines::{meets, project, test_summary};
use crate::typed_sheet::Sheet;
use crate::{
    LeafError, Literal, Predicate, PredicateOperator, Refusal, Summary, Transform, Type, Value,
    ValueError, Verdict,
};

/// An operator with its literals on a column, and the transform that splits the table by this column.
///
/// There is a constructor for each kind of operator, so that a leaf has as many literals as its operator takes and they all have
/// the column's type. Its text is the column's type, the transform, the operator and the literals, and is read back:
///
/// ```
/// use weighpick::{Leaf, Literal, PredicateOperator, Transform};
///
/// let leaf = Leaf::binary(PredicateOperator::LessThan, Transform::Truncate(10), &Literal::Int(300))?;
/// assert_eq!(leaf.to_string(), "int truncate[10] < 300");
/// assert_eq!("int truncate[10] < 300".parse(), Ok(leaf.clone()));
/// assert_eq!(leaf.negate().to_string(), "int truncate[10] >= 300");
/// # Ok::<(), weighpick::Error>(())
/// ```
#[derive(Clone, Debug, PartialEq, Eq, Hash)]
pub struct Leaf {
    sheet: Sheet,
}

impl Leaf {
    /// A leaf without a literal: IsNull, NotNull, IsNan, NotNan.
    ///
    /// ```
    /// use weighpick::{Leaf, PredicateOperator, Transform, Type};
    ///
    /// let leaf = Leaf::unary(PredicateOperator::IsNull, Type::Date, Transform::Month)?;
    /// let read = leaf.project()?.expect("IsNull passes through");
    /// assert_eq!((read.operator(), read.column_type()), (PredicateOperator::IsNull, Type::Int));
    ///
    /// assert!(Leaf::unary(PredicateOperator::Eq, Type::Date, Transform::Month).is_err());
    /// # Ok::<(), weighpick::Error>(())
    /// ```
    ///
    /// # Errors
    ///
    /// [`LeafError::WrongOperator`].
    #[inline]
    pub fn unary(
        operator: PredicateOperator,
        column_type: Type,
        transform: Transform,
    ) -> Result<Leaf, LeafError> {
        if !operator.is_unary() {
            return Err(LeafError::WrongOperator(operator));
        }
        let sheet = Sheet::new(operator, column_type, transform);
        Ok(Leaf { sheet })
    }

    /// A leaf with one literal, which has the column's type: the comparisons, StartsWith and NotStartsWith.
    ///
    /// ```
    /// use weighpick::{Leaf, Literal, PredicateOperator, Transform};
    ///
    /// let lots = Leaf::binary(PredicateOperator::StartsWith, Transform::Truncate(2), &Literal::string("ab12"))?;
    /// let read = lots.project()?.expect("StartsWith has an inclusive projection");
    /// assert_eq!(read.literals().collect::<Vec<_>>(), [Literal::string("ab")]);
    /// assert_eq!(lots.strict_project()?, None);
    /// # Ok::<(), weighpick::Error>(())
    /// ```
    ///
    /// # Errors
    ///
    /// [`LeafError::WrongOperator`], and [`LeafError::TooLong`] of a String or Binary.
    #[inline]
    pub fn binary(
        operator: PredicateOperator,
        transform: Transform,
        literal: &Literal,
    ) -> Result<Leaf, LeafError> {
        if !operator.is_binary() {
            return Err(LeafError::WrongOperator(operator));
        }
        let sheet = Sheet::with_one(operator, transform, literal)?;
        Ok(Leaf { sheet })
    }

    /// A leaf with a set of at most [`LITERALS_MAX`](crate::sheet::LITERALS_MAX) literals, 64, repeats among them: In, NotIn.
    ///
    /// More of them are asked in several leaves, and the picks joined: those of In by [`Pick::or`](crate::Pick::or), those of NotIn
    /// by [`Pick::and`](crate::Pick::and).
    ///
    /// ```
    /// use weighpick::{Leaf, Literal, PredicateOperator, Transform, Type};
    ///
    /// let moments = [Literal::Timestamp(0), Literal::Timestamp(86_400_000_000)];
    /// let leaf = Leaf::set(PredicateOperator::In, Type::Timestamp, Transform::Day, &moments)?;
    /// let read = leaf.project()?.expect("In has an inclusive projection");
    /// assert_eq!(read.literals().collect::<Vec<_>>(), [Literal::Date(0), Literal::Date(1)]);
    /// # Ok::<(), weighpick::Error>(())
    /// ```
    ///
    /// # Errors
    ///
    /// [`LeafError::WrongOperator`], [`LeafError::TooMany`] and, of the first literal that is none of the column,
    /// [`LeafError::WrongType`] or [`LeafError::TooLong`].
    pub fn set<'a>(
        operator: PredicateOperator,
        column_type: Type,
        transform: Transform,
        literals: impl IntoIterator<Item = &'a Literal>,
    ) -> Result<Leaf, LeafError> {
        if !operator.is_set() {
            return Err(LeafError::WrongOperator(operator));
        }
        let mut sheet = Sheet::new(operator, column_type, transform);
        for literal in literals {
            if sheet.len() == LITERALS_MAX {
                return Err(LeafError::TooMany(LITERALS_MAX));
            }
            sheet.push(literal)?;
        }
        Ok(Leaf { sheet })
    }

    /// Reads the sheet of a leaf, as [`as_bytes`](Leaf::as_bytes) gives it or as another program wrote it.
    ///
    /// # Errors
    ///
    /// [`Refusal::Malformed`] and [`Refusal::NotUtf8`].
    pub fn from_bytes(bytes: &[u8]) -> Result<Leaf, Refusal> {
        if bytes.len() > SHEET_MAX {
            return Err(Refusal::Malformed);
        }
        let sheet = Sheet::from_bytes(bytes)?;
        Ok(Leaf { sheet })
    }

    /// Its sheet, as the routines of [`sheet`](crate::sheet) take it.
    #[must_use]
    pub fn as_bytes(&self) -> &[u8] {
        self.sheet.as_bytes()
    }

    /// Its operator.
    #[must_use]
    pub fn operator(&self) -> PredicateOperator {
        self.sheet.operator()
    }

    /// The column's type.
    #[must_use]
    pub fn column_type(&self) -> Type {
        self.sheet.column_type()
    }

    /// The transform that splits the table.
    #[must_use]
    pub fn transform(&self) -> Transform {
        self.sheet.transform()
    }

    /// Its literals, as they were given.
    #[must_use]
    pub fn literals(&self) -> impl ExactSizeIterator<Item = Literal> + '_ {
        self.sheet.literals()
    }

    /// The leaf of a sheet that has as many literals as its operator takes, and at most [`LITERALS_MAX`].
    pub(crate) fn from_sheet(sheet: Sheet) -> Leaf {
        Leaf { sheet }
    }

    /// The leaf with the operator's negation. A present value meets one of the two and not the other; so does a missing value,
    /// which counts as different from every literal, but it meets neither of two that compare by order, nor IsNan or NotNan.
    ///
    /// ```
    /// # use weighpick::*;
    /// let [lot, grams]: [Leaf; 2] = ["string identity = \"ab12\"".parse()?, "int identity < 300".parse()?];
    /// assert_eq!((lot.holds(&Value::Missing), lot.negate().holds(&Value::Missing)), (Ok(false), Ok(true)));
    /// assert_eq!((grams.holds(&Value::Missing), grams.negate().holds(&Value::Missing)), (Ok(false), Ok(false)));
    /// # Ok::<(), Error>(())
    /// ```
    #[must_use]
    pub fn negate(&self) -> Leaf {
        let sheet = self.sheet.negate();
        Leaf { sheet }
    }

    /// The inclusive projection: a predicate that accepts the partition value of every row that meets the leaf, or none.
    ///
    /// After `Ok(None)` and after a refusal every file has to be read; [`picker`](Leaf::picker) sees to it.
    ///
    /// # Errors
    ///
    /// [`Refusal::NoResultType`], [`Refusal::FeatureUnsupported`], [`Refusal::DataInvalid`] and [`Refusal::Overflow`].
    pub fn project(&self) -> Result<Option<Predicate>, Refusal> {
        project(Question::Inclusive, self.as_bytes(), Predicate::answered)
    }

    /// The strict projection: a predicate that accepts only partition values all of whose rows meet the leaf, or none.
    ///
    /// It does not hold of files of older writers, for which there is [`strict_project_older`](Leaf::strict_project_older).
    ///
    /// # Errors
    ///
    /// The same refusals as of [`project`](Leaf::project), but not of the same leaves.
    pub fn strict_project(&self) -> Result<Option<Predicate>, Refusal> {
        project(Question::Strict, self.as_bytes(), Predicate::answered)
    }

    /// The strict projection for files of older writers: a predicate that accepts only partition values under which all rows that
    /// may lie there meet the leaf, or none.
    ///
    /// Such writers rounded Year, Month and, of Timestamp alone, Day toward zero, so that a row with a negative partition value may
    /// lie under it or under the next. [`project`](Leaf::project) loses no such row. Under every other transform this is
    /// [`strict_project`](Leaf::strict_project).
    ///
    /// ```
    /// use weighpick::Leaf;
    ///
    /// let since_1970: Leaf = "date year >= 0".parse()?;
    /// let [strict, older] = [since_1970.strict_project()?, since_1970.strict_project_older()?];
    /// assert_eq!(strict.expect(">= has one").to_string(), "int > -1");
    /// assert_eq!(older.expect(">= has one").to_string(), "int > 0"); // a row of 1969 may lie under 0
    ///
    /// let other_days: Leaf = "date year != -1".parse()?; // than the last of 1969
    /// let older = other_days.strict_project_older()?.expect("!= has one");
    /// assert_eq!(older.to_string(), "int NOT IN (-1, 0)");
    /// # Ok::<(), weighpick::Error>(())
    /// ```
    ///
    /// # Errors
    ///
    /// Where [`strict_project`](Leaf::strict_project) is refused, and with the same refusal.
    pub fn strict_project_older(&self) -> Result<Option<Predicate>, Refusal> {
        project(Question::Older, self.as_bytes(), Predicate::answered)
    }

    /// Whether a row with this value meets the leaf.
    ///
    /// # Errors
    ///
    /// A value of another type than the column's, and a String or Binary that is too long for a record.
    pub fn holds(&self, value: &Value) -> Result<bool, ValueError> {
        let mut record = EMPTY;
        value.put(self.column_type(), &mut record)?;
        Ok(meets(self.as_bytes(), &record))
    }

    /// What it says of rows by the summary of their values in this column, not of partition values: those are for
    /// [`Picker::pick_summary`](crate::Picker::pick_summary).
    ///
    /// ```
    /// use weighpick::{Leaf, Refusal, Summary, Verdict};
    ///
    /// let leaf: Leaf = "date month IN (30, 31)".parse()?;
    /// let rows = |text: &str| text.parse::<Summary>();
    /// assert_eq!(leaf.test_summary(&rows("date 30 to 31")?), Ok(Verdict::Whole));
    /// assert_eq!(leaf.test_summary(&rows("date 30 to 31, missing")?), Ok(Verdict::Read));
    /// assert_eq!(leaf.test_summary(&rows("date 32 to 60")?), Ok(Verdict::Skip));
    /// assert_eq!(leaf.test_summary(&rows("int 1 to 1")?), Err(Refusal::WrongSummary));
    /// # Ok::<(), weighpick::Error>(())
    /// ```
    ///
    /// # Errors
    ///
    /// [`Refusal::WrongSummary`] of a summary of another type, or one whose lowest is above its highest.
    #[inline]
    pub fn test_summary(&self, summary: &Summary) -> Result<Verdict, Refusal> {
        test_summary(self.as_bytes(), summary.as_bytes())
    }
}
