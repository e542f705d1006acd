//! How long the crate and the port take for the same leaves, in one run: Markdown tables with nanoseconds a call. All
//! answers are compared before a leaf is timed.
//!
//! The first table is crate and C name: the crate gets a `BoundPredicate` that is ready and drops its result within the
//! call; the port reads its sheet's bytes anew each call and writes into a buffer that is not cleared between calls. The
//! second table is what two callers pay, one of the crate and one of the port's Rust crate, from a leaf that is ready and
//! from literals, and, of the port alone, the third question beside the strict one, the holds-test, the test of a summary and
//! the pooling of two. Then come the tables of `filters`, in which the crate has no part. An argument, if there is one, picks
//! the kinds whose name has it in it.

mod files;
mod kinds;
mod older;
mod rust_crate;
mod sides;
mod tables;

use std::collections::BTreeSet;
use std::process::ExitCode;

use beside::crate_side;
use beside::leaf::{Leaf, Question, column, number, operator, transform};
use filters::Kinds;

use kinds::Kind;
use tables::Row;

/// The status of a run that was asked for a kind that is not there.
const MISUSED: u8 = 2;

fn main() -> ExitCode {
    let only = std::env::args().nth(1).unwrap_or_default();
    let kinds: Vec<Kind> = kinds::all().into_iter().filter(|kind| kind.name().contains(&only)).collect();
    let filters = Kinds::named(&only);
    if kinds.is_empty() && filters.is_empty() {
        let names: BTreeSet<String> = kinds::all().iter().map(|kind| kind.name().to_string()).collect();
        let names: Vec<String> = names.into_iter().chain(Kinds::named("").names()).collect();
        eprintln!("bench: no kind has `{only}` in its name; the kinds are\n  {}", names.join("\n  "));
        return ExitCode::from(MISUSED);
    }
    println!("Crate and plain Rust: opt-level 3, overflow checks {}. Port: as `tools/staticlib` builds it.", checks());
    println!("{}", timing::method());
    println!("The C name's result buffer is not cleared between calls; the crate's transform functions are ready.");
    if !kinds.is_empty() {
        let rows = Row::all(&kinds);
        for table in tables::crate_and_port(&rows).into_iter().chain([tables::two_callers(&rows)]) {
            print!("\n{table}");
        }
    }
    if !filters.is_empty() {
        print!("\n{}", filters.tables());
    }
    ExitCode::SUCCESS
}

/// Whether the crate was built with overflow checks, by its own behaviour: the lowest Int has none below it.
fn checks() -> &'static str {
    let lowest = Leaf {
        operator: operator::LESS,
        column: column::INT,
        transform: transform::TRUNCATE,
        width: 1,
        literals: vec![i32::MIN.to_le_bytes().to_vec()],
    };
    match crate_side::project(Question::Inclusive, &lowest).number {
        number::PANIC => "on",
        _ => "off",
    }
}
