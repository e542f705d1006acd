//! The rows that were timed, and the two tables of them.

use timing::{best_of_laps, cell, ratio};

use crate::kinds::Kind;
use crate::sides::{self, C_NAME, CRATE, CRATE_LITERALS, RUST, RUST_LITERALS, Times};

/// What a row says: the kind, what is asked, and nanoseconds a call on each side.
pub struct Row {
    name: String,
    asked: &'static str,
    times: Times,
}

impl Row {
    /// Times all kinds.
    pub fn all(kinds: &[Kind]) -> Vec<Row> {
        let times = best_of_laps(kinds, |kind| match kind {
            Kind::Projection(kind) => sides::time_projection(kind),
            Kind::Older(kind) => sides::time_older(kind),
            Kind::Transform(kind) => sides::time_transform(kind),
            Kind::Holds(kind) => sides::time_holds(kind),
            Kind::Verdict(kind) => sides::time_verdict(kind),
            Kind::Pool(kind) => sides::time_pool(kind),
        });
        let row = |(kind, times): (&Kind, Times)| Row { name: kind.name().to_string(), asked: kind.asked(), times };
        kinds.iter().zip(times).map(row).collect()
    }

    fn head(&self) -> String {
        format!("| {} | {} |", self.name, self.asked)
    }

    fn ns(&self, side: usize) -> String {
        cell(self.times[side])
    }

    fn ratio(&self, a: usize, b: usize) -> String {
        cell(ratio(self.times[a], self.times[b]))
    }

    fn above(&self, a: usize, b: usize) -> String {
        cell(self.times[a].zip(self.times[b]).map(|(a, b)| a - b))
    }
}

/// The crate, from what is ready, and the port's C name; none where no row has the crate's time.
pub fn crate_and_port(rows: &[Row]) -> Option<String> {
    let mut rows = rows.iter().filter(|row| row.times[CRATE].is_some()).peekable();
    rows.peek()?;
    let mut table = String::from("| kind | question | crate ns | port ns | crate / port |\n|---|---|---:|---:|---:|\n");
    for row in rows {
        let cells = [row.ns(CRATE), row.ns(C_NAME), row.ratio(CRATE, C_NAME)];
        table += &format!("{} {} |\n", row.head(), cells.join(" | "));
    }
    Some(table)
}

/// What a caller of the crate and one of the port's Rust crate pay, and the C name beside them.
pub fn two_callers(rows: &[Row]) -> String {
    let mut table = String::from(
        "| kind | question | crate | C name | Rust | Rust − C | crate / Rust | crate, from literals | Rust, from literals | crate / Rust |\n\
         |---|---|---:|---:|---:|---:|---:|---:|---:|---:|\n",
    );
    for row in rows {
        let cells = [
            row.ns(CRATE),
            row.ns(C_NAME),
            row.ns(RUST),
            row.above(RUST, C_NAME),
            row.ratio(CRATE, RUST),
            row.ns(CRATE_LITERALS),
            row.ns(RUST_LITERALS),
            row.ratio(CRATE_LITERALS, RUST_LITERALS),
        ];
        table += &format!("{} {} |\n", row.head(), cells.join(" | "));
    }
    table
}
