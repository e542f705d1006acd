//! Document 02's filters as they are commonly written in Rust, for the comparison alone: tokens, recursive descent to a
//! tree of boxed nodes, `not` read in a pass over the tree, and the tree asked of a row or of partition values. It takes
//! the port's bytes and gives the port's numbers, and is neither slowed down nor tuned. It is a crate of its own, so that
//! how it is compiled does not hang on who calls it.
//!
//! Projections are written out for the columns that the benchmark has, Truncate of a number and of a String, for Truncate
//! of a Binary, and for what needs no steps; the crate's own take a `BoundPredicate` and would have to be built for each
//! leaf.

mod columns;
mod parser;
mod steps;
mod tokens;
mod tree;
mod values;

use sheets::filter::Asked;
use sheets::leaf::number;

use columns::Column;
use tree::{Leaf, Value};

/// Why there is no answer, with the papers' numbers.
#[derive(Clone, Copy, Debug)]
pub enum Refusal {
    Malformed = number::MALFORMED as isize,
    NotUtf8 = number::NOT_UTF8 as isize,
    NoResultType = number::NO_RESULT_TYPE as isize,
    DataInvalid = number::DATA_INVALID as isize,
    FeatureUnsupported = number::FEATURE_UNSUPPORTED as isize,
    Overflow = number::PANIC as isize,
    OutsideGrammar = number::OUTSIDE_GRAMMAR as isize,
    TooLarge = number::TOO_LARGE as isize,
}

/// What the port's three routines answer: the number.
pub fn filter(asked: Asked, columns: &[u8], text: &[u8], values: &[u8]) -> u32 {
    match answer(asked, columns, text, values) {
        Ok(true) => number::WRITTEN,
        Ok(false) => number::NONE,
        Err(refusal) => refusal as u32,
    }
}

fn answer(asked: Asked, columns: &[u8], text: &[u8], values: &[u8]) -> Result<bool, Refusal> {
    let columns = columns::read(columns)?;
    let values = values::read(asked, &columns, values)?;
    let filter = parser::read(&columns, text)?.turned(false);
    filter.answer(&|leaf| ask(asked, &columns[leaf.column], leaf, values[leaf.column]))
}

/// What one leaf is answered by the value of its column.
fn ask(asked: Asked, column: &Column, leaf: &Leaf, value: Option<Value>) -> Result<bool, Refusal> {
    if asked == Asked::Row {
        return Ok(leaf.operator.holds(value, leaf.literal));
    }
    match steps::project(asked, column, leaf)? {
        Some((operator, literal)) => Ok(operator.holds(value, literal)),
        None => Ok(asked == Asked::Inclusive),
    }
}
