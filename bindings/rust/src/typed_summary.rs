//! Summaries: what a file list says of a file, kept as bytes.

use std::fmt::{self, Debug, Display, Formatter};
use std::str::FromStr;

use crate::contents::{take_literal, Content};
use crate::record::{content, head_record, put_missing, Record, RECORD_SIZE};
use crate::routines::{pool, test_summary};
use crate::text::{take_word, MISSING};
use crate::{Error, Literal, ParseError, PredicateOperator, Refusal, Transform, Type, ValueError};

/// The bytes of a summary: two value records, a type and a flag.
pub const SUMMARY_SIZE: usize = FLAG_AT + 1;

/// The bytes that the result buffer for a verdict has at least.
pub const VERDICT_BUFFER: usize = 1;

/// The places of both ends among a summary's records.
pub(crate) const LOWEST: usize = 0;
pub(crate) const HIGHEST: usize = 1;

/// Where the type stands, behind the records of both ends.
const TYPE_AT: usize = 2 * RECORD_SIZE;

/// Where the flag stands.
const FLAG_AT: usize = TYPE_AT + 1;

/// What the flag is a sum of: a missing value occurs; no value is present.
const HAS_MISSING: u8 = 1;
const NONE_PRESENT: u8 = 2;

/// How the summary of an empty file is written.
const EMPTY_FILE: &str = "empty";

/// What a file list says of a file: the lowest and the highest of its present values, and whether a missing one occurs.
///
/// The values are partition values, for the predicates of projections, or a column's own, for a [`Leaf`](crate::Leaf). A file whose
/// ends are not known has no summary and has to be read, as [`from_ends`](Summary::from_ends) says.
///
/// Whether the lowest is above the highest is left to the test, which answers [`Refusal::WrongSummary`]. The text of a summary is
/// read back:
///
/// ```
/// use weighpick::{Literal, Summary, Type};
///
/// let file = Summary::between(&Literal::Int(-20), &Literal::Int(290))?;
/// assert_eq!(file.to_string(), "int -20 to 290");
/// assert_eq!(file.with_missing(true).to_string(), "int -20 to 290, missing");
/// assert_eq!(Summary::empty(Type::Int).with_missing(true).to_string(), "int missing");
/// assert_eq!("int empty".parse(), Ok(Summary::empty(Type::Int)));
/// # Ok::<(), weighpick::Error>(())
/// ```
#[derive(Clone, PartialEq, Eq, Hash)]
pub struct Summary {
    bytes: [u8; SUMMARY_SIZE],
}

impl Summary {
    /// The summary of a file whose present values run from the lowest to the highest, two values of one type, with none missing.
    ///
    /// # Errors
    ///
    /// [`ValueError::WrongType`] of two types, and [`ValueError::TooLong`] of an end that is too long for a record.
    pub fn between(lowest: &Literal, highest: &Literal) -> Result<Summary, ValueError> {
        let column_type = lowest.column_type();
        let mut summary = Summary::new(column_type, 0);
        lowest.put(column_type, summary.record_mut(LOWEST))?;
        highest.put(column_type, summary.record_mut(HIGHEST))?;
        Ok(summary)
    }

    /// The summary of a file of which an end may not be known: both ends, else none, and the file is read. Two unknown ends are no
    /// empty file: that would be skipped, and [`empty`](Summary::empty) alone says it.
    ///
    /// ```
    /// use weighpick::{Literal, Summary};
    ///
    /// let (lowest, highest) = (Literal::Int(-20), Literal::Int(290));
    /// assert!(Summary::from_ends(Some(&lowest), Some(&highest))?.is_some());
    /// assert_eq!(Summary::from_ends(Some(&lowest), None)?, None);
    /// assert_eq!(Summary::from_ends(None, None)?, None);
    /// # Ok::<(), weighpick::Error>(())
    /// ```
    ///
    /// # Errors
    ///
    /// As for [`between`](Summary::between). Such a file is read too.
    pub fn from_ends(
        lowest: Option<&Literal>,
        highest: Option<&Literal>,
    ) -> Result<Option<Summary>, ValueError> {
        let ends = lowest.zip(highest);
        let summary = ends.map(|(lowest, highest)| Summary::between(lowest, highest));
        summary.transpose()
    }

    /// The summary of an empty file: no value is present, and none is missing.
    #[must_use]
    pub fn empty(column_type: Type) -> Summary {
        let mut summary = Summary::new(column_type, NONE_PRESENT);
        put_missing(summary.record_mut(LOWEST));
        put_missing(summary.record_mut(HIGHEST));
        summary
    }

    /// The same with a missing value, or without, by whether one occurs.
    #[must_use]
    pub fn with_missing(mut self, occurs: bool) -> Summary {
        let none_present = self.bytes[FLAG_AT] & NONE_PRESENT;
        self.bytes[FLAG_AT] = none_present | if occurs { HAS_MISSING } else { 0 };
        self
    }

    /// The summary of this file and another together: the lower of the lowest ends, the higher of the highest, missing if either has
    /// it. A file without present values adds only its missing mark, and an empty one nothing.
    ///
    /// It may hold what either file may hold, and a predicate that skips it skips each of the two.
    ///
    /// ```
    /// use weighpick::{Error, Refusal, Summary};
    ///
    /// let pooled = |first: &str, second: &str| -> Result<String, Error> {
    ///     Ok(first.parse::<Summary>()?.pool(&second.parse()?)?.to_string())
    /// };
    /// assert_eq!(pooled("int 290 to 310", "int 0 to 20, missing")?, "int 0 to 310, missing");
    /// assert_eq!(pooled("int missing", "int 0 to 20")?, "int 0 to 20, missing");
    /// assert_eq!(pooled("int empty", "int 0 to 20")?, "int 0 to 20");
    /// assert_eq!(pooled("int 0 to 20", "date 0 to 20"), Err(Refusal::DifferentTypes.into()));
    /// # Ok::<(), Error>(())
    /// ```
    ///
    /// # Errors
    ///
    /// [`Refusal::WrongSummary`] where the lowest of one is above its highest, and [`Refusal::DifferentTypes`].
    #[inline]
    pub fn pool(&self, other: &Summary) -> Result<Summary, Refusal> {
        let pooled = pool(&self.bytes, &other.bytes)?;
        let mut bytes = [0; SUMMARY_SIZE];
        bytes[..RECORD_SIZE].copy_from_slice(pooled.lowest.record);
        bytes[RECORD_SIZE..TYPE_AT].copy_from_slice(pooled.highest.record);
        bytes[TYPE_AT] = self.bytes[TYPE_AT];
        bytes[FLAG_AT] = pooled.flag;
        Ok(Summary { bytes })
    }

    /// The summary of some files together, pooled one after the other; none where there is no file.
    ///
    /// ```
    /// use weighpick::{Leaf, Pick, Summary};
    ///
    /// let picker = "int truncate[10] < 295".parse::<Leaf>()?.picker();
    /// let files = ["int 300 to 310", "int empty", "int 450 to 500, missing"].map(str::parse::<Summary>);
    /// let files = files.into_iter().collect::<Result<Vec<_>, _>>()?;
    /// let pooled = Summary::pool_all(&files)?.expect("there are files");
    /// assert_eq!(pooled.to_string(), "int 300 to 500, missing");
    /// assert_eq!(picker.pick_summary(&pooled)?, Pick::Skip); // no row of the three files meets the leaf
    /// # Ok::<(), weighpick::Error>(())
    /// ```
    ///
    /// # Errors
    ///
    /// The first refusal, as for [`pool`](Summary::pool); one file alone may be refused too.
    pub fn pool_all<'a>(
        files: impl IntoIterator<Item = &'a Summary>,
    ) -> Result<Option<Summary>, Refusal> {
        let mut files = files.into_iter().peekable();
        let Some(first) = files.peek() else {
            return Ok(None);
        };
        // An empty file adds nothing, so that the first is looked at like the others.
        let empty = Summary::empty(first.column_type());
        let pooled = files.try_fold(empty, |pooled, file| pooled.pool(file));
        pooled.map(Some)
    }

    /// A summary with records of zeros.
    fn new(column_type: Type, flag: u8) -> Summary {
        let mut bytes = [0; SUMMARY_SIZE];
        bytes[TYPE_AT] = column_type.number();
        bytes[FLAG_AT] = flag;
        Summary { bytes }
    }

    /// The record of an end, the lowest's first.
    fn record_mut(&mut self, place: usize) -> &mut Record {
        let record = self.bytes[RECORD_SIZE * place..].first_chunk_mut();
        record.expect("a summary has two records")
    }

    /// Reads a summary, as [`as_bytes`](Summary::as_bytes) gives it or as another program wrote it.
    ///
    /// # Errors
    ///
    /// [`Refusal::Malformed`] and [`Refusal::NotUtf8`].
    pub fn from_bytes(bytes: &[u8]) -> Result<Summary, Refusal> {
        // The library reads a summary whole before it compares types and ends.
        match test_summary(&any_leaf(Type::Int), bytes) {
            Ok(_) | Err(Refusal::WrongSummary) => {
                let bytes = bytes.try_into().map_err(|_| Refusal::Malformed)?;
                Ok(Summary { bytes })
            }
            Err(refusal) => Err(refusal),
        }
    }

    /// Whether it is one of this type, with its ends in order.
    pub(crate) fn check(&self, column_type: Type) -> Result<(), Refusal> {
        test_summary(&any_leaf(column_type), &self.bytes).map(|_| ())
    }

    /// Its bytes, as the routines of [`summary`](crate::summary) take them.
    #[must_use]
    pub fn as_bytes(&self) -> &[u8] {
        &self.bytes
    }

    /// The type of the values.
    #[must_use]
    pub fn column_type(&self) -> Type {
        type_of(&self.bytes)
    }

    /// The lowest and the highest of the present values, if there are any.
    #[must_use]
    pub fn ends(&self) -> Option<(Literal, Literal)> {
        Some((self.end(LOWEST)?, self.end(HIGHEST)?))
    }

    /// The value in the record of an end; none where the record is marked missing.
    fn end(&self, place: usize) -> Option<Literal> {
        let content = end_record(&self.bytes, place).and_then(content)?;
        let literal = Literal::from_content(self.column_type(), content);
        Some(literal.expect("every end of a summary has its type"))
    }

    /// Whether a missing value occurs.
    #[must_use]
    pub fn has_missing(&self) -> bool {
        self.bytes[FLAG_AT] & HAS_MISSING != 0
    }
}

/// The type in the bytes of a summary. They were written here, or read by the library, which takes none with another number.
fn type_of(bytes: &[u8; SUMMARY_SIZE]) -> Type {
    Type::from_number(bytes[TYPE_AT]).expect("the type of a summary is listed")
}

/// The record of an end, if there are so many bytes.
#[inline]
pub(crate) fn end_record(summary: &[u8], place: usize) -> Option<&Record> {
    summary.get(RECORD_SIZE * place..)?.first_chunk()
}

/// The sheet of a leaf of a type, without literals.
fn any_leaf(column_type: Type) -> Record {
    head_record(
        0,
        PredicateOperator::NotNull,
        column_type,
        Transform::Identity,
    )
}

impl Debug for Summary {
    fn fmt(&self, f: &mut Formatter<'_>) -> fmt::Result {
        f.debug_struct("Summary")
            .field("column_type", &self.column_type())
            .field("ends", &self.ends())
            .field("has_missing", &self.has_missing())
            .finish()
    }
}

impl Display for Summary {
    fn fmt(&self, f: &mut Formatter<'_>) -> fmt::Result {
        write!(f, "{} ", self.column_type())?;
        match (self.ends(), self.has_missing()) {
            (None, false) => f.write_str(EMPTY_FILE),
            (None, true) => f.write_str(MISSING),
            (Some((lowest, highest)), missing) => {
                write!(f, "{} to {}", Content(&lowest), Content(&highest))?;
                if missing {
                    write!(f, ", {MISSING}")?;
                }
                Ok(())
            }
        }
    }
}

/// Reads what [`Display`] writes.
impl FromStr for Summary {
    type Err = Error;

    fn from_str(text: &str) -> Result<Summary, Error> {
        let wrong = || ParseError::new(text, "summary");
        let (column_type, rest) = take_word(text)?;
        match rest {
            EMPTY_FILE => return Ok(Summary::empty(column_type)),
            MISSING => return Ok(Summary::empty(column_type).with_missing(true)),
            _ => {}
        }
        let (lowest, rest) = take_literal(column_type, rest).ok_or_else(wrong)?;
        let rest = rest.strip_prefix(" to ").ok_or_else(wrong)?;
        let (highest, rest) = take_literal(column_type, rest).ok_or_else(wrong)?;
        let summary = Summary::between(&lowest, &highest)?;
        match rest.strip_prefix(", ") {
            None if rest.is_empty() => Ok(summary),
            Some(MISSING) => Ok(summary.with_missing(true)),
            _ => Err(wrong().into()),
        }
    }
}
