//! The calls of the static library, and all of this crate's `unsafe` but the declarations in `c_names`.
//!
//! The library reads the lent bytes, writes at most to the start of `out` and to `count`, or to the three numbers of pooling, keeps
//! no pointer and has no state. It is proved to do so for bytes of every kind, so the safe functions below ask nothing of their
//! callers. Proved as well is that number, count and the written bytes are the same whatever `out` held before the call: `out` may
//! be memory that nothing was written to.
//!
//! All this holds of the library that the declarations are of, so that each call goes through `checked`.

#![allow(unsafe_code)]

use std::mem::MaybeUninit;
use std::slice;
use std::sync::atomic::{AtomicBool, Ordering};

use crate::record::{SHEET_BUFFER, VALUE_BUFFER};
use crate::{c_names, version};

/// Whether the library has told this crate's version.
static TOLD: AtomicBool = AtomicBool::new(false);

/// A routine of the library, once the library has told this crate's version; one of another version ends in a panic.
#[inline]
fn checked<F>(routine: F) -> F {
    // Nothing else hangs on the flag, and threads that ask at once are told the same.
    if !TOLD.load(Ordering::Relaxed) {
        ask_version();
    }
    routine
}

/// Asks the library for its version.
#[cold]
fn ask_version() {
    // SAFETY: it takes nothing, and only gives a number.
    let library = unsafe { c_names::weighpick_version() };
    if let Some(wrong) = version::mismatch(version::OWN, library) {
        panic!("{wrong}");
    }
    TOLD.store(true, Ordering::Relaxed);
}

/// Memory for a result that goes with the call. It starts with a line of the cache, of 64 bytes, so that a record lies in as few
/// of them as it can.
#[repr(align(64))]
struct Own<const N: usize>(MaybeUninit<[u8; N]>);

impl<const N: usize> Own<N> {
    /// Not cleared: clearing a sheet's would take longer than most projections.
    #[inline]
    fn new() -> Own<N> {
        Own(MaybeUninit::uninit())
    }

    /// Where it starts. No reference to its bytes is made before they are written.
    #[inline]
    fn start(&mut self) -> *mut u8 {
        self.0.as_mut_ptr().cast()
    }

    /// Its first bytes.
    ///
    /// # Safety
    ///
    /// So many bytes were written, and there are so many.
    #[inline]
    unsafe fn written(&self, count: usize) -> &[u8] {
        // SAFETY: what this function asks.
        unsafe { slice::from_raw_parts(self.0.as_ptr().cast(), count) }
    }
}

/// One of the three projections.
#[derive(Clone, Copy)]
pub(crate) enum Question {
    Inclusive,
    Strict,
    /// Strict for files of older writers.
    Older,
}

/// What a filter is asked: of a row, or one of its two questions, of partition values.
#[derive(Clone, Copy)]
pub(crate) enum Asked {
    Row,
    Inclusive,
    Strict,
}

/// What a value is transformed under, in document 01's numbers.
#[derive(Clone, Copy)]
pub(crate) struct Setting {
    pub(crate) column_type: u8,
    pub(crate) transform: u8,
    pub(crate) width: u32,
}

/// An answer: document 01's number, and how many bytes were written. They are the first of the buffer, and no more than it has.
pub(crate) struct Answer {
    pub(crate) number: u32,
    pub(crate) count: usize,
}

/// Asks a projection.
///
/// # Safety
///
/// `out` is lent to this call alone, for writing `out_len` bytes.
#[inline]
unsafe fn project_at(question: Question, sheet: &[u8], out: *mut u8, out_len: usize) -> Answer {
    let projection = checked(match question {
        Question::Inclusive => c_names::weighpick_project,
        Question::Strict => c_names::weighpick_strict_project,
        Question::Older => c_names::weighpick_strict_project_older,
    });
    let mut count = 0;
    // SAFETY: the sheet's pointer comes from a live reference and goes with its length, `out` is as this function asks, and
    // `count` is a variable of its own, so that nothing that is written overlaps anything else.
    let number = unsafe { projection(sheet.as_ptr(), sheet.len(), out, out_len, &mut count) };
    Answer {
        number,
        count: count as usize,
    }
}

/// Asks for the transform of one value.
///
/// # Safety
///
/// As for `project_at`.
#[inline]
unsafe fn transform_at(setting: Setting, value: &[u8], out: *mut u8, out_len: usize) -> Answer {
    let routine = checked(c_names::weighpick_transform);
    let mut count = 0;
    // SAFETY: as in `project_at`; the three numbers may have any value.
    let number = unsafe {
        routine(
            setting.column_type,
            setting.transform,
            setting.width,
            value.as_ptr(),
            value.len(),
            out,
            out_len,
            &mut count,
        )
    };
    Answer {
        number,
        count: count as usize,
    }
}

/// A projection into a lent buffer.
pub(crate) fn project_into(question: Question, sheet: &[u8], out: &mut [u8]) -> Answer {
    // SAFETY: `out` is borrowed exclusively and goes with its length.
    unsafe { project_at(question, sheet, out.as_mut_ptr(), out.len()) }
}

/// A projection into a buffer of its own: the number and the written bytes are handed to `take`.
#[inline]
pub(crate) fn project<T>(
    question: Question,
    sheet: &[u8],
    take: impl FnOnce(u32, &[u8]) -> T,
) -> T {
    let mut out = Own::<SHEET_BUFFER>::new();
    // SAFETY: `out` is a variable of its own with room for so many bytes.
    let answer = unsafe { project_at(question, sheet, out.start(), SHEET_BUFFER) };
    // SAFETY: the library has written so many bytes at the start of `out`.
    take(answer.number, unsafe { out.written(answer.count) })
}

/// The transform of one value into a lent buffer.
pub(crate) fn transform_into(setting: Setting, value: &[u8], out: &mut [u8]) -> Answer {
    // SAFETY: as in `project_into`.
    unsafe { transform_at(setting, value, out.as_mut_ptr(), out.len()) }
}

/// The transform of one value into a buffer of its own: the number and the written bytes are handed to `take`.
#[inline]
pub(crate) fn transform<T>(
    setting: Setting,
    value: &[u8],
    take: impl FnOnce(u32, &[u8]) -> T,
) -> T {
    let mut out = Own::<VALUE_BUFFER>::new();
    // SAFETY: as in `project`.
    let answer = unsafe { transform_at(setting, value, out.start(), VALUE_BUFFER) };
    // SAFETY: as in `project`.
    take(answer.number, unsafe { out.written(answer.count) })
}

/// The holds-test; gives document 01's number.
pub(crate) fn holds(sheet: &[u8], value: &[u8]) -> u32 {
    let routine = checked(c_names::weighpick_holds);
    // SAFETY: both pointers come from live references and go with their slices' lengths; nothing is written.
    unsafe { routine(sheet.as_ptr(), sheet.len(), value.as_ptr(), value.len()) }
}

/// The test of a summary into a lent buffer.
pub(crate) fn test_summary_into(sheet: &[u8], summary: &[u8], out: &mut [u8]) -> Answer {
    let routine = checked(c_names::weighpick_test_summary);
    let mut count = 0;
    // SAFETY: all pointers come from live references and go with their slices' lengths; `out` is borrowed exclusively, and `count`
    // is a variable of its own.
    let number = unsafe {
        routine(
            sheet.as_ptr(),
            sheet.len(),
            summary.as_ptr(),
            summary.len(),
            out.as_mut_ptr(),
            out.len(),
            &mut count,
        )
    };
    Answer {
        number,
        count: count as usize,
    }
}

/// What pooling answers: document 01's number and, after 0, whose the lowest and the highest end are, and the flag.
pub(crate) struct PoolAnswer {
    pub(crate) number: u32,
    pub(crate) lowest: u64,
    pub(crate) highest: u64,
    pub(crate) flag: u64,
}

/// The pooling of two summaries.
#[inline]
pub(crate) fn pool(first: &[u8], second: &[u8]) -> PoolAnswer {
    let routine = checked(c_names::weighpick_pool);
    let (mut lowest, mut highest, mut flag) = (0, 0, 0);
    // SAFETY: both pointers come from live references and go with their slices' lengths; what is written are three variables.
    let number = unsafe {
        routine(
            first.as_ptr(),
            first.len(),
            second.as_ptr(),
            second.len(),
            &mut lowest,
            &mut highest,
            &mut flag,
        )
    };
    PoolAnswer {
        number,
        lowest,
        highest,
        flag,
    }
}

/// A filter's answer; gives document 01's number.
pub(crate) fn filter(asked: Asked, columns: &[u8], text: &[u8], values: &[u8]) -> u32 {
    let routine = checked(match asked {
        Asked::Row => c_names::weighpick_filter_row,
        Asked::Inclusive => c_names::weighpick_filter_project,
        Asked::Strict => c_names::weighpick_filter_strict_project,
    });
    // SAFETY: the three pointers come from live references and go with their slices' lengths; nothing is written.
    unsafe {
        routine(
            columns.as_ptr(),
            columns.len(),
            text.as_ptr(),
            text.len(),
            values.as_ptr(),
            values.len(),
        )
    }
}
