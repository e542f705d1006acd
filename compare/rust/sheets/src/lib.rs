//! What the port is asked and answers, without the crate iceberg.
//!
//! - `leaf`: leaves, values and answers in document 01's numbers
//! - `sheet`: the same as bytes, written and read
//! - `filter`: document 02's column lists, and its limits
//! - `draw`: contents from a fixed seed
//! - `port`: weighpick's C entry points

// The port's own declarations; build.sh puts them beside this crate. They have the layout of bindings/rust. The version
// is not asked here.
#[allow(dead_code)]
#[rustfmt::skip]
#[path = "../../weighpick/src/c_names.rs"]
mod c_names;
pub mod draw;
pub mod filter;
pub mod leaf;
pub mod port;
pub mod sheet;
