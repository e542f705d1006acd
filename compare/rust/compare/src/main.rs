//! The crate iceberg beside the port weighpick: the same inputs go to both, and every answer of the port must be the
//! crate's, but where docs/DIFFERENCES.md names the input; there it must be what the specification gives.
//!
//! Inputs are first all those of some small worlds (`every`, `every_sheet`), then random ones from a seed (`draw`,
//! `damage`). `expect` says what is expected, `comparison` asks the port and looks at every byte, `tally` counts. With
//! --sample, the crate's own answers are written as cases for the gate's program instead (`sample`).

mod comparison;
mod damage;
mod draw;
mod edges;
mod every;
mod every_sheet;
mod expect;
mod meets;
mod reader;
mod rng;
mod rules;
mod sample;
mod specification;
mod tally;
mod types;
mod words;

use std::process::ExitCode;
use std::time::Instant;

use beside::leaf::{ANSWER_LITERALS, LITERALS, SHEET_BUFFER, VALUE_BUFFER, column, operator, transform};
use beside::sheet::value_record;

use comparison::{Comparison, MOST_LENT};
use damage::damage;
use draw::{Asked, Draw};

const USAGE: &str = "compare [--seed N] [--count N] [--sample FILE]";
const DEFAULT_SEED: u64 = 1;
const DEFAULT_COUNT: u64 = 1_000_000;
/// After how many random cases a line of progress is printed.
const PROGRESS: u64 = 250_000;
/// The status of a run that found a difference, and of one that was called wrongly.
const DIFFERENT: u8 = 1;
const MISUSED: u8 = 2;

struct Options {
    seed: u64,
    count: u64,
    sample: Option<String>,
}

fn options() -> Option<Options> {
    let mut options = Options { seed: DEFAULT_SEED, count: DEFAULT_COUNT, sample: None };
    let mut arguments = std::env::args().skip(1);
    while let Some(name) = arguments.next() {
        let value = arguments.next()?;
        match name.as_str() {
            "--seed" => options.seed = value.parse().ok()?,
            "--count" => options.count = value.parse().ok()?,
            "--sample" => options.sample = Some(value),
            _ => return None,
        }
    }
    Some(options)
}

fn main() -> ExitCode {
    let Some(options) = options() else {
        eprintln!("{USAGE}");
        return ExitCode::from(MISUSED);
    };
    if let Some(file) = options.sample {
        return match sample::write(&file) {
            Ok(lines) => {
                print!("{lines}");
                ExitCode::SUCCESS
            }
            Err(error) => {
                eprintln!("{file}: {error}");
                ExitCode::from(MISUSED)
            }
        };
    }
    let mut comparison = Comparison::new();
    run_every(&mut comparison);
    run_drawn(&mut comparison, options.seed, options.count);
    let tally = &comparison.tally;
    println!("{}", tally.tables());
    println!(
        "seed {}, {} random cases, {} answers compared, {} differences that no rule names",
        options.seed,
        options.count,
        tally.answers(),
        tally.differences
    );
    if tally.differences == 0 { ExitCode::SUCCESS } else { ExitCode::from(DIFFERENT) }
}

fn run_every(comparison: &mut Comparison) {
    for (name, part) in every::PARTS.into_iter().chain(every_sheet::PARTS) {
        let (start, before) = (Instant::now(), comparison.tally.answers());
        eprint!("{name}: ");
        part(comparison);
        let answers = comparison.tally.answers() - before;
        eprintln!("{answers} answers in {:.1} s", start.elapsed().as_secs_f32());
    }
}

fn run_drawn(comparison: &mut Comparison, seed: u64, count: u64) {
    let start = Instant::now();
    let mut draw = Draw::new(seed);
    for done in 1..=count {
        drawn_case(comparison, &mut draw);
        if done % PROGRESS == 0 || done == count {
            eprintln!("{done} random cases in {:.1} s", start.elapsed().as_secs_f32());
        }
    }
}

/// One random case: a leaf, a value to transform, a leaf to test a value with, and a damaged copy of one of the three.
fn drawn_case(comparison: &mut Comparison, draw: &mut Draw) {
    let leaf = draw.leaf();
    let mut sheet = draw.laid_out(&leaf, LITERALS);
    comparison.leaf_on(&leaf, &sheet, SHEET_BUFFER + draw.rng.below(3));

    let Asked { column, transform, width, value } = draw.asked();
    let mut record = value_record(&value).to_vec();
    comparison.value(column, transform, width, &record, VALUE_BUFFER + draw.rng.below(3));

    let (test_operator, test_column) = (draw.rng.pick(&operator::ALL), draw.rng.pick(&column::ALL));
    let test_transform = draw.rng.pick(&transform::ALL);
    let test = draw.leaf_of(test_operator, test_column, test_transform, ANSWER_LITERALS);
    let mut test_sheet = draw.laid_out(&test, ANSWER_LITERALS);
    let mut test_record = value_record(&draw.value_for(&test)).to_vec();
    comparison.holds(&test_sheet, &test_record);

    match draw.rng.below(6) {
        0 | 1 => {
            damage(&mut draw.rng, &mut sheet);
            comparison.sheet(&sheet, SHEET_BUFFER);
        }
        2 => {
            damage(&mut draw.rng, &mut record);
            comparison.value(column, transform, width, &record, VALUE_BUFFER);
        }
        3 => {
            let numbers = [column, transform].map(|number| if draw.rng.one_in(2) { number } else { draw.rng.byte() });
            comparison.value(numbers[0], numbers[1], width, &record, draw.rng.below(2 * VALUE_BUFFER));
        }
        4 => {
            let damaged = if draw.rng.one_in(2) { &mut test_sheet } else { &mut test_record };
            damage(&mut draw.rng, damaged);
            comparison.holds(&test_sheet, &test_record);
        }
        _ => comparison.sheet(&sheet, draw.rng.below(MOST_LENT)),
    }
}
