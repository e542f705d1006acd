//! The routines over bytes, with the answer numbers as results.

use crate::ffi::{self, Answer, Asked, PoolAnswer, Question, Setting};
use crate::pooled::{End, Pooled, Whose};
use crate::record::Record;
use crate::typed_summary::{end_record, HIGHEST, LOWEST, VERDICT_BUFFER};
use crate::{Refusal, Transform, Type, Verdict};

/// Document 01's answer 0: there is a result, or the answer is yes.
const RESULT: u32 = 0;

/// Document 01's answer 1: there is no predicate, or the answer is no.
const NONE: u32 = 1;

/// The refusal with a number that the library gave.
fn refusal(number: u32) -> Refusal {
    Refusal::from_number(number)
        .unwrap_or_else(|| unreachable!("the library gives no answer {number} here"))
}

/// A projection's answer by its number: what is made of the answer sheet, none, or a refusal.
#[inline]
fn projected<T>(number: u32, result: impl FnOnce() -> T) -> Result<Option<T>, Refusal> {
    match number {
        RESULT => Ok(Some(result())),
        NONE => Ok(None),
        number => Err(refusal(number)),
    }
}

/// A projection into a buffer that goes with the call: what `take` makes of the answer sheet, none, or a refusal.
#[inline]
pub(crate) fn project<T>(
    question: Question,
    sheet: &[u8],
    take: impl FnOnce(&[u8]) -> T,
) -> Result<Option<T>, Refusal> {
    ffi::project(question, sheet, |number, written| {
        projected(number, || take(written))
    })
}

/// A projection into a lent buffer.
fn ask_into<'a>(
    question: Question,
    sheet: &[u8],
    out: &'a mut [u8],
) -> Result<Option<&'a [u8]>, Refusal> {
    let answer = ffi::project_into(question, sheet, out);
    projected(answer.number, || &out[..answer.count])
}

/// The inclusive projection of a sheet. The answer sheet is written to the start of `out` and handed back; without one, `out` is
/// left as it was.
///
/// ```
/// use weighpick::sheet::{project_into, Sheet, SHEET_BUFFER};
/// use weighpick::{Literal, PredicateOperator, Transform, Type};
///
/// let mut sheet = Sheet::new(PredicateOperator::Eq, Type::Date, Transform::Year);
/// sheet.push(&Literal::Date(-1))?;
/// let mut out = [0; SHEET_BUFFER];
/// let answer = project_into(sheet.as_bytes(), &mut out)?.expect("Eq has an inclusive projection");
///
/// let answer = Sheet::from_bytes(answer)?;
/// assert_eq!(answer.operator(), PredicateOperator::In);
/// assert_eq!(answer.literals().collect::<Vec<_>>(), [Literal::Int(-1), Literal::Int(0)]);
/// # Ok::<(), Box<dyn std::error::Error>>(())
/// ```
///
/// # Errors
///
/// [`Refusal::BufferTooSmall`] under [`SHEET_BUFFER`](crate::sheet::SHEET_BUFFER) bytes, [`Refusal::Malformed`] and
/// [`Refusal::NotUtf8`] of bytes that are no sheet, and what [`Leaf::project`](crate::Leaf::project) is refused with; the first of
/// these that holds.
pub fn project_into<'a>(sheet: &[u8], out: &'a mut [u8]) -> Result<Option<&'a [u8]>, Refusal> {
    ask_into(Question::Inclusive, sheet, out)
}

/// The strict projection of a sheet; the rest is as for [`project_into`].
///
/// # Errors
///
/// As for [`project_into`], but for what the projection itself is refused with.
pub fn strict_project_into<'a>(
    sheet: &[u8],
    out: &'a mut [u8],
) -> Result<Option<&'a [u8]>, Refusal> {
    ask_into(Question::Strict, sheet, out)
}

/// The strict projection of a sheet for files of older writers, as [`Leaf::strict_project_older`](crate::Leaf::strict_project_older)
/// says; the rest is as for [`project_into`].
///
/// ```
/// use weighpick::sheet::{strict_project_into, strict_project_older_into, SHEET_BUFFER};
/// use weighpick::{Leaf, Predicate};
///
/// let leaf: Leaf = "timestamp day >= 0".parse()?;
/// let mut out = [0; SHEET_BUFFER];
/// let answer = strict_project_older_into(leaf.as_bytes(), &mut out)?.expect(">= has a strict projection");
/// assert_eq!(Predicate::from_bytes(answer)?.to_string(), "date > 0");
///
/// let answer = strict_project_into(leaf.as_bytes(), &mut out)?.expect(">= has a strict projection");
/// assert_eq!(Predicate::from_bytes(answer)?.to_string(), "date > -1");
/// # Ok::<(), weighpick::Error>(())
/// ```
///
/// # Errors
///
/// As for [`strict_project_into`].
pub fn strict_project_older_into<'a>(
    sheet: &[u8],
    out: &'a mut [u8],
) -> Result<Option<&'a [u8]>, Refusal> {
    ask_into(Question::Older, sheet, out)
}

/// A transform and the type of the column that it splits, in document 01's numbers.
fn setting(transform: Transform, column_type: Type) -> Setting {
    Setting {
        column_type: column_type.number(),
        transform: transform.number(),
        width: transform.width(),
    }
}

/// The transform of a value record into a buffer that goes with the call: what `take` makes of the partition value's record, or a
/// refusal.
#[inline]
pub(crate) fn transform<T, E: From<Refusal>>(
    transform: Transform,
    column_type: Type,
    value: &[u8],
    take: impl FnOnce(&[u8]) -> Result<T, E>,
) -> Result<T, E> {
    let setting = setting(transform, column_type);
    ffi::transform(setting, value, |number, written| match number {
        RESULT => take(written),
        number => Err(refusal(number).into()),
    })
}

/// The transform of a value record. The partition value's record is written to the start of `out` and handed back; after a refusal
/// `out` is left as it was.
///
/// # Errors
///
/// [`Refusal::BufferTooSmall`] under [`VALUE_BUFFER`](crate::sheet::VALUE_BUFFER) bytes, [`Refusal::Malformed`] and
/// [`Refusal::NotUtf8`] of a record that is no value of the type, and where the value has no partition value.
pub fn transform_into<'a>(
    transform: Transform,
    column_type: Type,
    value: &[u8],
    out: &'a mut [u8],
) -> Result<&'a [u8], Refusal> {
    let answer = ffi::transform_into(setting(transform, column_type), value, out);
    written(answer, out)
}

/// What was written to a buffer, or a refusal, by the answer of a routine that writes whenever it does not refuse.
#[inline]
fn written(answer: Answer, out: &[u8]) -> Result<&[u8], Refusal> {
    match answer.number {
        RESULT => Ok(&out[..answer.count]),
        number => Err(refusal(number)),
    }
}

/// The holds-test: whether the value in a record meets a sheet's leaf, or an answer sheet's predicate. It takes up to
/// [`ANSWER_LITERALS_MAX`](crate::sheet::ANSWER_LITERALS_MAX) literals and looks at neither transform nor width.
///
/// # Errors
///
/// [`Refusal::Malformed`] and [`Refusal::NotUtf8`] of bytes that are no sheet, or no value of its type.
pub fn holds(sheet: &[u8], value: &[u8]) -> Result<bool, Refusal> {
    said(ffi::holds(sheet, value))
}

/// A yes, a no or a refusal, by its number.
#[inline]
fn said(number: u32) -> Result<bool, Refusal> {
    match number {
        RESULT => Ok(true),
        NONE => Ok(false),
        number => Err(refusal(number)),
    }
}

/// The holds-test of a sheet and a value that this crate wrote, of one type: neither is refused.
pub(crate) fn meets(sheet: &[u8], value: &Record) -> bool {
    holds(sheet, value).expect("a sheet and a value of its type are well-formed")
}

/// The test of a summary: the verdict on a file by a sheet's leaf, or by an answer sheet's predicate. The sheet is one for the
/// holds-test, of the summary's type.
///
/// ```
/// use weighpick::summary::test_summary;
/// use weighpick::{Leaf, Literal, Refusal, Summary, Verdict};
///
/// let below_300: Leaf = "int identity < 300".parse()?;
/// let file = Summary::between(&Literal::Int(290), &Literal::Int(310))?;
/// assert_eq!(test_summary(below_300.as_bytes(), file.as_bytes()), Ok(Verdict::Read));
/// assert_eq!(test_summary(below_300.as_bytes(), &[]), Err(Refusal::Malformed));
/// # Ok::<(), weighpick::Error>(())
/// ```
///
/// # Errors
///
/// [`Refusal::Malformed`] and [`Refusal::NotUtf8`] of bytes that are no sheet or no summary, and then [`Refusal::WrongSummary`]
/// where the two have different types, or the lowest is above the highest.
#[inline]
pub fn test_summary(sheet: &[u8], summary: &[u8]) -> Result<Verdict, Refusal> {
    let mut out = [0; VERDICT_BUFFER];
    test_summary_into(sheet, summary, &mut out).map(verdict)
}

/// The verdict that the library wrote.
#[inline]
fn verdict(written: &[u8]) -> Verdict {
    let verdict = match written {
        [number] => Verdict::from_number(*number),
        _ => None,
    };
    verdict.expect("the library writes the number of a verdict")
}

/// The test of a summary into a lent buffer. One byte, the verdict's number, is written to the start of `out` and handed back;
/// after a refusal `out` is left as it was. The rest is as for [`test_summary`].
///
/// # Errors
///
/// [`Refusal::BufferTooSmall`] under [`VERDICT_BUFFER`](crate::summary::VERDICT_BUFFER) bytes, and as for [`test_summary`].
#[inline]
pub fn test_summary_into<'a>(
    sheet: &[u8],
    summary: &[u8],
    out: &'a mut [u8],
) -> Result<&'a [u8], Refusal> {
    let answer = ffi::test_summary_into(sheet, summary, out);
    written(answer, out)
}

/// The summary of two files together, of one type: the lower of the lowest ends, the higher of the highest, missing if either has
/// it. Its ends are parts of the two summaries.
///
/// Equal ends are the first file's. A file without present values leaves both ends to the other; where neither has any, they are
/// the first's.
///
/// ```
/// use weighpick::sheet::RECORD_SIZE;
/// use weighpick::summary::{pool, Whose};
/// use weighpick::{Literal, Summary};
///
/// let first = Summary::between(&Literal::Int(290), &Literal::Int(310))?;
/// let second = Summary::between(&Literal::Int(0), &Literal::Int(310))?.with_missing(true);
/// let pooled = pool(first.as_bytes(), second.as_bytes())?;
/// assert_eq!((pooled.lowest.whose, pooled.highest.whose), (Whose::Second, Whose::First));
/// assert_eq!(pooled.lowest.record, &second.as_bytes()[..RECORD_SIZE]);
/// assert_eq!(pooled.flag, 1);
/// # Ok::<(), weighpick::Error>(())
/// ```
///
/// # Errors
///
/// [`Refusal::Malformed`] and [`Refusal::NotUtf8`] of bytes that are no summary, then [`Refusal::WrongSummary`] of one whose lowest
/// is above its highest, and then [`Refusal::DifferentTypes`].
#[inline]
pub fn pool<'a>(first: &'a [u8], second: &'a [u8]) -> Result<Pooled<'a>, Refusal> {
    let answer = ffi::pool(first, second);
    match answer.number {
        RESULT => Ok(pooled([first, second], &answer)),
        number => Err(refusal(number)),
    }
}

/// What pooling said, with the ends in the summaries that they are parts of.
#[inline]
fn pooled<'a>(summaries: [&'a [u8]; 2], answer: &PoolAnswer) -> Pooled<'a> {
    let end = |number, place| {
        let whose = Whose::from_number(number)?;
        let record = end_record(summaries[whose as usize], place)?;
        Some(End { whose, record })
    };
    let ends = end(answer.lowest, LOWEST).zip(end(answer.highest, HIGHEST));
    let (lowest, highest) = ends.expect("the library pools two summaries");
    Pooled {
        lowest,
        highest,
        // At most 3.
        flag: answer.flag as u8,
    }
}

/// Whether a row meets a filter. `values` are the records of one value a column, in the order of the list; each has its column's
/// type.
///
/// ```
/// use weighpick::filter::filter_row;
/// use weighpick::{Columns, Literal, Refusal, Transform, Type};
///
/// let columns = Columns::new([("grams", Type::Int, Transform::Truncate(10))])?;
/// let row = columns.row(&[Literal::Int(290).into()])?;
/// assert_eq!(filter_row(columns.as_bytes(), b"grams < 300", row.as_bytes()), Ok(true));
/// assert_eq!(filter_row(columns.as_bytes(), b"grams < 300", &[]), Err(Refusal::Malformed));
/// # Ok::<(), weighpick::Error>(())
/// ```
///
/// # Errors
///
/// [`Refusal::Malformed`] and [`Refusal::NotUtf8`] of bytes that are no column list, or not one value a column, and then
/// [`Refusal::OutsideGrammar`] and [`Refusal::TooLarge`] of the text.
pub fn filter_row(columns: &[u8], text: &[u8], values: &[u8]) -> Result<bool, Refusal> {
    said(ffi::filter(Asked::Row, columns, text, values))
}

/// The inclusive question of a filter: no only where no row of these partition values meets it. Each value has the result type of
/// its column's transform, else the column's; the rest is as for [`filter_row`].
///
/// # Errors
///
/// As for [`filter_row`], and where the projection of a leaf is refused; the leftmost such leaf's refusal is the whole's.
pub fn filter_project(columns: &[u8], text: &[u8], values: &[u8]) -> Result<bool, Refusal> {
    said(ffi::filter(Asked::Inclusive, columns, text, values))
}

/// The strict question of a filter: yes only where every row of these partition values meets it, which does not hold of files of
/// older writers, as [`Filter::strict_project`](crate::Filter::strict_project) says. The values are as for [`filter_project`].
///
/// # Errors
///
/// As for [`filter_project`].
pub fn filter_strict_project(columns: &[u8], text: &[u8], values: &[u8]) -> Result<bool, Refusal> {
    said(ffi::filter(Asked::Strict, columns, text, values))
}
