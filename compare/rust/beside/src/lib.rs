//! The crate iceberg and the port weighpick side by side, behind one interface: a leaf goes in, an answer comes out.
//! The comparison and the benchmark both stand on it.
//!
//! - `leaf`, `sheet`, `draw`, `port`: what the port alone needs, from `sheets`
//! - `crate_side`: the crate's `Transform::project`, `strict_project` and `transform_literal`
//! - `crate_types`: document 01's numbers as the crate's types, and back

pub mod crate_side;
mod crate_types;

pub use sheets::{draw, leaf, port, sheet};
