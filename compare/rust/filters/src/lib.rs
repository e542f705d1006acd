//! How long a plain Rust parser and the port take for the same filters, in one run: Markdown tables with nanoseconds a
//! call. Both take the same bytes, a column list, a text and a value record for each column, and all answers are compared
//! before a filter is timed. Nothing here needs the crate iceberg.
//!
//! - `writer`: filters, rows and partition values as bytes
//! - `texts`: filters that are compared, and texts that are none
//! - `agree`: answers of the two, compared
//! - `kinds`: the filters that are timed
//! - `tables`: the rows that were timed, and the two tables of them

mod agree;
mod kinds;
mod tables;
mod texts;
mod writer;

pub use kinds::Kinds;
