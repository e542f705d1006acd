//! The safe rule for a server: what is done with a file, by its partition value or by a summary of its partition values.

use crate::record::EMPTY;
use crate::{Leaf, Pick, Predicate, Refusal, Summary, Type, Value, ValueError, Verdict};

/// Both projections of a leaf, asked once, to pick files by their partition values or summaries. Made by [`Leaf::picker`] or, for
/// files of older writers, by [`Leaf::older_picker`].
///
/// A file is skipped only where there is an inclusive predicate and it does not accept the partition value; it is taken whole only
/// where there is a strict predicate and it does. So no row is lost where a projection has no predicate or was refused: then every
/// file is read and filtered. [What is proved](crate#what-is-proved) is the predicates; that this rule loses no row is tested.
///
/// ```
/// use weighpick::{Leaf, Literal, Pick, PredicateOperator, Transform, Value};
///
/// // grams < 295, in a table split by grams in steps of 10
/// let leaf = Leaf::binary(PredicateOperator::LessThan, Transform::Truncate(10), &Literal::Int(295))?;
/// let picker = leaf.picker();
/// assert_eq!(picker.pick(&Literal::Int(280).into())?, Pick::Whole);
/// assert_eq!(picker.pick(&Literal::Int(290).into())?, Pick::Read);
/// assert_eq!(picker.pick(&Literal::Int(300).into())?, Pick::Skip);
/// assert_eq!(picker.pick(&Value::Missing)?, Pick::Skip);
///
/// // Below the lowest step there is no partition value: refused, and so nothing is passed over.
/// let lowest = Leaf::binary(PredicateOperator::LessThan, Transform::Truncate(10), &Literal::Int(-2_147_483_640))?;
/// assert!(lowest.project().is_err());
/// assert_eq!(lowest.picker().pick(&Literal::Int(0).into())?, Pick::Read);
/// # Ok::<(), weighpick::Error>(())
/// ```
#[derive(Clone, Debug, PartialEq, Eq, Hash)]
pub struct Picker {
    /// The type of the partition values; none where the transform has no result type for the column, or is Unknown.
    partition_type: Option<Type>,
    inclusive: Result<Option<Predicate>, Refusal>,
    strict: Result<Option<Predicate>, Refusal>,
}

impl Leaf {
    /// Asks both projections, for picking files by their partition values or summaries. Where older writers may have written them,
    /// [`older_picker`](Leaf::older_picker) is to be asked.
    #[must_use]
    pub fn picker(&self) -> Picker {
        self.picker_with(self.strict_project())
    }

    /// The picker for files that older writers may have written: the strict projection is
    /// [`strict_project_older`](Leaf::strict_project_older). It skips what [`picker`](Leaf::picker) skips, and takes no file whole
    /// that may hold another row.
    ///
    /// ```
    /// use weighpick::{Leaf, Literal, Pick, Summary};
    ///
    /// // Weighings since 1970, in a table split by year; one of 1969 may lie under 0 as well.
    /// let leaf: Leaf = "date year >= 0".parse()?;
    /// let (picker, older) = (leaf.picker(), leaf.older_picker());
    /// for (year, by_picker, by_older) in [
    ///     (-1, Pick::Skip, Pick::Skip),
    ///     (0, Pick::Whole, Pick::Read),
    ///     (1, Pick::Whole, Pick::Whole),
    /// ] {
    ///     let file = Literal::Int(year);
    ///     assert_eq!(picker.pick(&file.clone().into())?, by_picker);
    ///     assert_eq!(older.pick(&file.clone().into())?, by_older);
    ///     assert_eq!(older.pick_summary(&Summary::between(&file, &file)?)?, by_older);
    /// }
    /// # Ok::<(), weighpick::Error>(())
    /// ```
    #[must_use]
    pub fn older_picker(&self) -> Picker {
        self.picker_with(self.strict_project_older())
    }

    /// The picker that goes by one of the two strict projections.
    fn picker_with(&self, strict: Result<Option<Predicate>, Refusal>) -> Picker {
        Picker {
            partition_type: self.transform().result_type(self.column_type()).ok(),
            inclusive: self.project(),
            strict,
        }
    }
}

impl Picker {
    /// What is done with the file of a partition value.
    ///
    /// Where partition values have no type, as under [`Transform::Unknown`](crate::Transform::Unknown), every value is answered
    /// [`Pick::Read`].
    ///
    /// # Errors
    ///
    /// [`ValueError::WrongType`] of a value of another type, which is none of this table's, and [`ValueError::TooLong`] of a String
    /// or Binary of more than [`CONTENT_MAX`](crate::sheet::CONTENT_MAX) bytes, which a table may well have. A `?` would end the
    /// query there; `.unwrap_or(Pick::Read)` reads the file.
    pub fn pick(&self, partition_value: &Value) -> Result<Pick, ValueError> {
        let Some(partition_type) = self.partition_type else {
            return Ok(Pick::Read);
        };
        let mut record = EMPTY;
        partition_value.put(partition_type, &mut record)?;
        if let Ok(Some(inclusive)) = &self.inclusive {
            if !inclusive.holds_record(&record) {
                return Ok(Pick::Skip);
            }
        }
        if let Ok(Some(strict)) = &self.strict {
            if strict.holds_record(&record) {
                return Ok(Pick::Whole);
            }
        }
        Ok(Pick::Read)
    }

    /// What is done with a file of which only the ends of its partition values are known.
    ///
    /// Where partition values have no type, every summary is answered [`Pick::Read`].
    ///
    /// ```
    /// use weighpick::{Leaf, Pick, Summary};
    ///
    /// let picker = "int truncate[10] < 295".parse::<Leaf>()?.picker();
    /// for (file, expected) in [
    ///     ("int 0 to 280", Pick::Whole),
    ///     ("int 0 to 290", Pick::Read), // there may be a row of 297
    ///     ("int 0 to 280, missing", Pick::Read),
    ///     ("int 300 to 450, missing", Pick::Skip),
    ///     ("int empty", Pick::Skip),
    /// ] {
    ///     assert_eq!(picker.pick_summary(&file.parse::<Summary>()?)?, expected);
    /// }
    /// # Ok::<(), weighpick::Error>(())
    /// ```
    ///
    /// # Errors
    ///
    /// [`Refusal::WrongSummary`] of a summary of another type than the partition's, or one whose lowest is above its highest, whether
    /// there is a predicate or not. Such a file is to be read, which `.unwrap_or(Pick::Read)` says.
    pub fn pick_summary(&self, summary: &Summary) -> Result<Pick, Refusal> {
        let Some(partition_type) = self.partition_type else {
            return Ok(Pick::Read);
        };
        // Without a predicate to ask, the summary is looked at all the same.
        if !matches!(
            (&self.inclusive, &self.strict),
            (Ok(Some(_)), _) | (_, Ok(Some(_)))
        ) {
            summary.check(partition_type)?;
        }
        if let Ok(Some(inclusive)) = &self.inclusive {
            if inclusive.test_summary(summary)? == Verdict::Skip {
                return Ok(Pick::Skip);
            }
        }
        if let Ok(Some(strict)) = &self.strict {
            if strict.test_summary(summary)? == Verdict::Whole {
                return Ok(Pick::Whole);
            }
        }
        Ok(Pick::Read)
    }

    /// What [`Leaf::project`] answered.
    ///
    /// # Errors
    ///
    /// The refusal that it was answered with.
    pub fn inclusive(&self) -> Result<Option<&Predicate>, Refusal> {
        answer(&self.inclusive)
    }

    /// What [`Leaf::strict_project`] answered; in the picker for files of older writers, [`Leaf::strict_project_older`].
    ///
    /// # Errors
    ///
    /// The refusal that it was answered with.
    pub fn strict(&self) -> Result<Option<&Predicate>, Refusal> {
        answer(&self.strict)
    }
}

fn answer(projected: &Result<Option<Predicate>, Refusal>) -> Result<Option<&Predicate>, Refusal> {
    projected
        .as_ref()
        .map(Option::as_ref)
        .map_err(|refusal| *refusal)
}
