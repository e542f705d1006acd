//! Column lists and values, the bytes behind filters, and the three routines over them.
//!
//! For callers that get the bytes from elsewhere; [`Filter`](crate::Filter) asks the same of typed values. `docs/FORMAT.md` in the
//! repository says what each byte of a list and of a value is, and what a text has to be.

pub use crate::columns::{COLUMNS_MAX, COLUMN_SIZE, NAME_SIZE};
pub use crate::routines::{filter_project, filter_row, filter_strict_project};
pub use crate::typed_filter::{BRACKETS_MAX, LEAVES_MAX, TEXT_MAX};
