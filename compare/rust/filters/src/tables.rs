//! The rows that were timed, and the two tables of them.

use sheets::filter::{Asked, TEXT};
use timing::{best_of_laps, cell, ratio, with_digits};

use crate::kinds::{C_NAME, C_NAME_HALF, Kind, PLAIN, Times};

type Row<'a> = (&'a Kind, Times);

/// Times all kinds.
pub fn tables(kinds: &[Kind]) -> String {
    let times = best_of_laps(kinds, Kind::time);
    let (long, short): (Vec<Row>, Vec<Row>) = kinds.iter().zip(times).partition(|(kind, _)| kind.is_long());
    let tables = [(short, short_table as fn(&[Row]) -> String), (long, long_table)];
    let tables = tables.iter().filter(|(rows, _)| !rows.is_empty()).map(|(rows, table)| table(rows));
    tables.collect::<Vec<String>>().join("\n")
}

/// The plain parser and the C name.
fn short_table(rows: &[Row]) -> String {
    let head = "| kind | question | plain Rust ns | C name ns | plain / C name |\n|---|---|---:|---:|---:|\n";
    let row = |(kind, times): &Row| cells(kind, times) + "\n";
    head.to_string() + &rows.iter().map(row).collect::<String>()
}

/// The same for long texts, and what a byte takes in them and in texts of half their length.
fn long_table(rows: &[Row]) -> String {
    let half = TEXT / 2;
    let head = format!(
        "| kind | question | plain Rust ns | C name ns | plain / C name | C name ns a byte | at {half} bytes |\n\
         |---|---|---:|---:|---:|---:|---:|\n"
    );
    let row = |(kind, times): &Row| {
        let a_byte = |side: usize, bytes: usize| with_digits(times[side].map(|ns| ns / bytes as f64), 2);
        let [per_byte, per_byte_half] = [a_byte(C_NAME, TEXT), a_byte(C_NAME_HALF, half)];
        format!("{} {per_byte} | {per_byte_half} |\n", cells(kind, times))
    };
    head + &rows.iter().map(row).collect::<String>()
}

/// What a row of either table begins with.
fn cells(kind: &Kind, times: &Times) -> String {
    let [plain, port] = [times[PLAIN], times[C_NAME]];
    let numbers = [cell(plain), cell(port), cell(ratio(plain, port))];
    format!("| {} | {} | {} |", kind.name, word(kind.asked), numbers.join(" | "))
}

fn word(asked: Asked) -> &'static str {
    match asked {
        Asked::Row => "row",
        Asked::Inclusive => "inclusive",
        Asked::Strict => "strict",
    }
}
