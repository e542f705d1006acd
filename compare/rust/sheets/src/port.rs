//! The port's C entry points (crates/weighpick_c), called with slices. Each hands back document 01's number and, where
//! there is one, the count of bytes written; pooling the three numbers that it sets.

use crate::c_names;
use crate::filter::Asked;
use crate::leaf::Question;

/// What the count, or a number, holds before a call, so that one that was not set shows.
const UNSET: u64 = u64::MAX;

/// The C name of a projection.
type Projection = unsafe extern "C" fn(*const u8, usize, *mut u8, usize, *mut u64) -> u32;

/// One projection of a sheet into `out`: number and count.
#[inline]
pub fn project(question: Question, sheet: &[u8], out: &mut [u8]) -> (u32, u64) {
    let routine = match question {
        Question::Inclusive => c_names::weighpick_project,
        Question::Strict => c_names::weighpick_strict_project,
    };
    project_by(routine, sheet, out)
}

/// The third question, strict for older files, which the crate has not: number and count.
#[inline]
pub fn strict_project_older(sheet: &[u8], out: &mut [u8]) -> (u32, u64) {
    project_by(c_names::weighpick_strict_project_older, sheet, out)
}

#[inline]
fn project_by(routine: Projection, sheet: &[u8], out: &mut [u8]) -> (u32, u64) {
    let mut count = UNSET;
    // SAFETY: pointers and lengths are those of live slices; `out` and `count` are lent to this call alone.
    let number = unsafe { routine(sheet.as_ptr(), sheet.len(), out.as_mut_ptr(), out.len(), &mut count) };
    (number, count)
}

/// The transform of one value record into `out`: number and count.
#[inline]
pub fn transform(column: u8, transform: u8, width: u32, value: &[u8], out: &mut [u8]) -> (u32, u64) {
    let mut count = UNSET;
    // SAFETY: as in `project_by`.
    let number = unsafe {
        c_names::weighpick_transform(
            column,
            transform,
            width,
            value.as_ptr(),
            value.len(),
            out.as_mut_ptr(),
            out.len(),
            &mut count,
        )
    };
    (number, count)
}

/// The holds-test of a sheet and a value record: the number.
#[inline]
pub fn holds(sheet: &[u8], value: &[u8]) -> u32 {
    // SAFETY: pointers and lengths are those of live slices, which the routine only reads.
    unsafe { c_names::weighpick_holds(sheet.as_ptr(), sheet.len(), value.as_ptr(), value.len()) }
}

/// The test of a summary by a sheet into `out`: number and count.
#[inline]
pub fn test_summary(sheet: &[u8], summary: &[u8], out: &mut [u8]) -> (u32, u64) {
    let mut count = UNSET;
    // SAFETY: as in `project_by`.
    let number = unsafe {
        c_names::weighpick_test_summary(
            sheet.as_ptr(),
            sheet.len(),
            summary.as_ptr(),
            summary.len(),
            out.as_mut_ptr(),
            out.len(),
            &mut count,
        )
    };
    (number, count)
}

/// The pooling of two summaries: number, and whose the lowest and the highest end are, and the flag.
#[inline]
pub fn pool(first: &[u8], second: &[u8]) -> (u32, [u64; 3]) {
    let (mut lowest, mut highest, mut flag) = (UNSET, UNSET, UNSET);
    // SAFETY: pointers and lengths are those of live slices; the three numbers are lent to this call alone.
    let number = unsafe {
        c_names::weighpick_pool(
            first.as_ptr(),
            first.len(),
            second.as_ptr(),
            second.len(),
            &mut lowest,
            &mut highest,
            &mut flag,
        )
    };
    (number, [lowest, highest, flag])
}

/// What a filter is answered by the values of its columns: the number.
#[inline]
pub fn filter(asked: Asked, columns: &[u8], text: &[u8], values: &[u8]) -> u32 {
    let routine = match asked {
        Asked::Row => c_names::weighpick_filter_row,
        Asked::Inclusive => c_names::weighpick_filter_project,
        Asked::Strict => c_names::weighpick_filter_strict_project,
    };
    // SAFETY: as in `holds`.
    unsafe { routine(columns.as_ptr(), columns.len(), text.as_ptr(), text.len(), values.as_ptr(), values.len()) }
}
