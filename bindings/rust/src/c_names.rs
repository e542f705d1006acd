//! The C names of the static library, declared once for all Rust that calls them: this crate, its tests, and the programs of
//! `compare`. `tests/declarations.rs` holds them to the C header and to the library's source.

unsafe extern "C" {
    pub fn weighpick_version() -> u32;
    pub fn weighpick_project(
        sheet: *const u8,
        sheet_len: usize,
        out: *mut u8,
        out_len: usize,
        count: *mut u64,
    ) -> u32;
    pub fn weighpick_strict_project(
        sheet: *const u8,
        sheet_len: usize,
        out: *mut u8,
        out_len: usize,
        count: *mut u64,
    ) -> u32;
    pub fn weighpick_strict_project_older(
        sheet: *const u8,
        sheet_len: usize,
        out: *mut u8,
        out_len: usize,
        count: *mut u64,
    ) -> u32;
    pub fn weighpick_transform(
        column_type: u8,
        transform: u8,
        width: u32,
        value: *const u8,
        value_len: usize,
        out: *mut u8,
        out_len: usize,
        count: *mut u64,
    ) -> u32;
    pub fn weighpick_holds(
        sheet: *const u8,
        sheet_len: usize,
        value: *const u8,
        value_len: usize,
    ) -> u32;
    pub fn weighpick_test_summary(
        sheet: *const u8,
        sheet_len: usize,
        summary: *const u8,
        summary_len: usize,
        out: *mut u8,
        out_len: usize,
        count: *mut u64,
    ) -> u32;
    pub fn weighpick_pool(
        first: *const u8,
        first_len: usize,
        second: *const u8,
        second_len: usize,
        lowest: *mut u64,
        highest: *mut u64,
        flag: *mut u64,
    ) -> u32;
    pub fn weighpick_filter_row(
        columns: *const u8,
        columns_len: usize,
        text: *const u8,
        text_len: usize,
        values: *const u8,
        values_len: usize,
    ) -> u32;
    pub fn weighpick_filter_project(
        columns: *const u8,
        columns_len: usize,
        text: *const u8,
        text_len: usize,
        values: *const u8,
        values_len: usize,
    ) -> u32;
    pub fn weighpick_filter_strict_project(
        columns: *const u8,
        columns_len: usize,
        text: *const u8,
        text_len: usize,
        values: *const u8,
        values_len: usize,
    ) -> u32;
}
