//! Which files of an Iceberg table can hold rows that a filter asks for?
//!
//! A [`Leaf`] is an operator with literals on one column, together with the [`Transform`] that splits the table. Its inclusive
//! projection is a [`Predicate`] on partition values that loses no row of the leaf; its strict projection accepts only partition
//! values all of whose rows meet the leaf.
//!
//! ```
//! use weighpick::{Leaf, Literal, Pick, PredicateOperator, Transform};
//!
//! // grams < 300, in a table split by grams in steps of 10
//! let leaf = Leaf::binary(PredicateOperator::LessThan, Transform::Truncate(10), &Literal::Int(300))?;
//!
//! let picker = leaf.picker(); // asks both projections, once
//! for (partition_value, expected) in [(290, Pick::Whole), (300, Pick::Skip)] {
//!     let pick = picker.pick(&partition_value.into()).unwrap_or(Pick::Read);
//!     assert_eq!(pick, expected);
//! }
//!
//! // One projection by itself.
//! let read = leaf.project()?.expect("such a leaf has an inclusive projection");
//! assert_eq!(read.to_string(), "int <= 290");
//! # Ok::<(), weighpick::Error>(())
//! ```
//!
//! A file may be passed over only where [`Predicate::holds`] of the inclusive projection is `Ok(false)`, or its
//! [`test_summary`](Predicate::test_summary) is `Ok(Verdict::Skip)`. Without a predicate (`Ok(None)`), and after a [`Refusal`],
//! every file is read. [`Picker`] keeps this rule; where it gives an error, as of a String that is too long for a record,
//! `.unwrap_or(Pick::Read)` keeps it. A `?` would end the query instead. The picks of several leaves are joined by [`Pick::and`]
//! and [`Pick::or`].
//!
//! `docs/FORMAT.md` in the repository says what lies in sheets, records, filters, summaries and answers; "document 01" in these pages
//! is the customer's paper behind it, and "document 02" the one on filters and summaries.
//!
//! [`sheet`] has the same over bytes, for callers that keep their buffers. [`Error`] takes every error of this crate.
//!
//! # What is proved
//!
//! Every answer is given by the static library `weighpick_c`. Its routines are proved, for bytes of every kind: no row is lost by an
//! inclusive predicate, by a verdict of one or by a filter's no. They keep no state, and may be called from several threads at once.
//! This crate's own code is not proved but tested: it turns types into bytes and back, keeps the rule above in [`Picker::pick`],
//! [`Picker::pick_summary`] and [`Filter::pick`], and joins picks.
//!
//! # Panics
//!
//! The first call of the library asks it for its version, and panics where that is not this crate's: of another version nothing is
//! known that the calls rely on. The library is then to be built anew with `tools/staticlib weighpick_c`, or `WEIGHPICK_LIB_DIR` to be
//! set to the folder of the right one, and the program to be linked again. A library from before 0.9.0 tells no version, and is
//! refused by the linker.
//!
//! # Filters
//!
//! A [`Filter`] is a text over several [`Columns`], with and, or, not and brackets. It is asked of a [`Row`], and of a
//! [`Partition`], the partition values of a file, under both questions; [`Filter::pick`] keeps the rule above for it.
//!
//! ```
//! use weighpick::{Columns, Filter, Pick, Transform, Type};
//!
//! let lot = ("lot", Type::String, Transform::Truncate(4));
//! let grams = ("grams", Type::Int, Transform::Truncate(10));
//! let columns = Columns::new([lot, grams])?;
//! let filter = Filter::new(&columns, "lot startswith 'ab' and not (grams < 300 or grams = 500)");
//! filter.check()?; // whether it is a filter, for whoever typed it
//!
//! for (partition_value, expected) in [(310, Pick::Whole), (500, Pick::Read), (290, Pick::Skip)] {
//!     let file = columns.partition(&["ab12".into(), partition_value.into()]);
//!     assert_eq!(file.map_or(Pick::Read, |file| filter.pick(&file)), expected);
//! }
//! let row = columns.row(&["ab12x".into(), 501.into()])?;
//! assert!(filter.row(&row)?);
//! # Ok::<(), weighpick::Error>(())
//! ```
//!
//! # Files known only by their ends
//!
//! A file list gives a [`Summary`] of each file: its lowest and its highest partition value, and whether a missing one occurs. A
//! predicate's [`Verdict`] on it is about every value that such a file may hold; [`Picker::pick_summary`] keeps the rule above.
//!
//! ```
//! use weighpick::{Leaf, Literal, Pick, Summary};
//!
//! // grams < 295, in a table split by grams in steps of 10
//! let picker = "int truncate[10] < 295".parse::<Leaf>()?.picker();
//! for (lowest, highest, expected) in [(0, 280, Pick::Whole), (0, 450, Pick::Read), (300, 450, Pick::Skip)] {
//!     let file = Summary::between(&Literal::Int(lowest), &Literal::Int(highest))?;
//!     assert_eq!(picker.pick_summary(&file).unwrap_or(Pick::Read), expected);
//! }
//! # Ok::<(), weighpick::Error>(())
//! ```
//!
//! [`Summary::pool`] makes one summary of two: that of the file which the two are joined to, or of a group of files, all of which
//! are passed over where it is skipped.
//!
//! # Files of older writers
//!
//! Some tables have files whose writers rounded Year, Month and, of Timestamp alone, Day toward zero: there a row with a negative
//! partition value may lie under it or under the next. No inclusive projection loses such a row. For what is taken whole there is
//! [`Leaf::strict_project_older`]; [`Leaf::older_picker`] and [`Filter::pick_older`] keep the rule above for such files.
//!
//! ```
//! use weighpick::{Leaf, Pick};
//!
//! // Weighings since 1970, in a table split by day.
//! let leaf: Leaf = "timestamp day >= 0".parse()?;
//! for (day, expected) in [("date -1", Pick::Skip), ("date 0", Pick::Read), ("date 1", Pick::Whole)] {
//!     assert_eq!(leaf.older_picker().pick(&day.parse()?).unwrap_or(Pick::Read), expected);
//! }
//! # Ok::<(), weighpick::Error>(())
//! ```

#![deny(missing_docs)]
#![deny(unsafe_code)]

mod bytes;
#[allow(unsafe_code)]
mod c_names;
mod column_error;
mod columns;
mod contents;
mod error;
mod ffi;
pub mod filter;
mod leaf;
mod leaf_error;
mod literal;
mod operators;
mod parse_error;
mod pick;
mod picker;
mod pooled;
mod predicate;
mod record;
mod refusal;
mod routines;
mod row_error;
mod rows;
pub mod sheet;
pub mod summary;
mod text;
mod transform;
mod typed_filter;
mod typed_sheet;
mod typed_summary;
mod types;
mod value;
mod value_error;
mod verdict;
mod version;

pub use column_error::ColumnError;
pub use columns::Columns;
pub use error::Error;
pub use leaf::Leaf;
pub use leaf_error::LeafError;
pub use literal::Literal;
pub use operators::PredicateOperator;
pub use parse_error::ParseError;
pub use pick::Pick;
pub use picker::Picker;
pub use predicate::Predicate;
pub use refusal::Refusal;
pub use row_error::RowError;
pub use rows::{Partition, Row};
pub use transform::Transform;
pub use typed_filter::Filter;
pub use typed_summary::Summary;
pub use types::Type;
pub use value::Value;
pub use value_error::ValueError;
pub use verdict::Verdict;

/// The page above the bindings, so that its samples are compiled with the other examples.
#[cfg(doctest)]
#[doc = include_str!("../../README.md")]
struct Page;
