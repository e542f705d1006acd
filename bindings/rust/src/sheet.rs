//! Sheets, the bytes behind leaves and predicates, and the five routines over them.
//!
//! For callers that keep their buffers, or that get sheets from elsewhere. One [`Sheet`] may be written again and again, and one
//! result buffer lent to every call; a predicate may stay in the buffer and be tested there. `docs/FORMAT.md` in the repository
//! says what each byte of a sheet, a value and an answer is.
//!
//! ```
//! use weighpick::sheet::{holds, project_into, Sheet, SHEET_BUFFER};
//! use weighpick::{Literal, PredicateOperator, Transform, Type, Value};
//!
//! let mut sheet = Sheet::new(PredicateOperator::IsNull, Type::Int, Transform::Identity);
//! let mut out = [0; SHEET_BUFFER];
//! for grams in [100, 200, 300] {
//!     sheet.restart(PredicateOperator::LessThan, Type::Int, Transform::Truncate(10));
//!     sheet.push(&Literal::Int(grams))?;
//!     let predicate = project_into(sheet.as_bytes(), &mut out)?.expect("< has a projection");
//!     let partition = Value::from(Literal::Int(150)).to_record(Type::Int)?;
//!     assert_eq!(holds(predicate, &partition)?, grams > 150);
//! }
//! # Ok::<(), weighpick::Error>(())
//! ```

pub use crate::record::{
    Record, ANSWER_LITERALS_MAX, CONTENT_MAX, LITERALS_MAX, RECORD_SIZE, SHEET_BUFFER, SHEET_MAX,
    VALUE_BUFFER,
};
pub use crate::routines::{
    holds, project_into, strict_project_into, strict_project_older_into, transform_into,
};
pub use crate::typed_sheet::Sheet;
