//! Summaries, the bytes by which files are known, and the two routines over them.
//!
//! For callers that get the bytes from elsewhere; [`Predicate::test_summary`](crate::Predicate::test_summary) and
//! [`Summary::pool`](crate::Summary::pool) ask the same with typed ends. `docs/FORMAT.md` in the repository says what each byte of
//! a summary is.

pub use crate::pooled::{End, Pooled, Whose};
pub use crate::routines::{pool, test_summary, test_summary_into};
pub use crate::typed_summary::{SUMMARY_SIZE, VERDICT_BUFFER};
