//! Document 02's filters: what is asked of one, its column list as bytes, and its limits.

use crate::leaf::RECORD;
use crate::sheet::head;

/// Bytes of a column's name, and of its entry in the list: the name and a head.
pub const NAME: usize = 16;
pub const ENTRY: usize = NAME + RECORD;
/// Columns that a list may have.
pub const COLUMNS: usize = 8;
/// What a text may have: bytes, leaves, brackets that are open at one place.
pub const TEXT: usize = 4096;
pub const LEAVES: usize = 32;
pub const BRACKETS: usize = 16;
/// The words that no column may have for its name.
pub const RESERVED: [&str; 4] = ["and", "or", "not", "startswith"];

/// What is asked of the values beside a column list: those of a row, or partition values under either question.
#[derive(Clone, Copy, Debug, PartialEq, Eq)]
pub enum Asked {
    Row,
    Inclusive,
    Strict,
}

/// A column that a filter can name.
#[derive(Clone, Copy)]
pub struct Column {
    pub name: &'static str,
    pub column: u8,
    pub transform: u8,
    pub width: u32,
}

/// The bytes of a column list.
pub fn column_list(columns: &[Column]) -> Vec<u8> {
    let mut list = Vec::with_capacity(columns.len() * ENTRY);
    for column in columns {
        let mut name = [0; NAME];
        name[..column.name.len()].copy_from_slice(column.name.as_bytes());
        list.extend(name);
        // the operator of a column's head is 0
        list.extend(head(0, column.column, column.transform, column.width));
    }
    list
}
