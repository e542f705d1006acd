//! What was compared, counted: answers by number for each transform with its types and for each operator, and how often
//! each rule was used.

use std::fmt::Write;

use beside::leaf::{Leaf, Question, column, number, operator, transform};

use crate::expect::{Applied, Expected};
use crate::rules::Rule;
use crate::words::operator_name;

/// Document 01's answers are 0 to 8.
const NUMBERS: usize = 9;
const MICROS: &[u8] = &[column::TIMESTAMP, column::TIMESTAMPTZ];
const NANOS: &[u8] = &[column::TIMESTAMP_NS, column::TIMESTAMPTZ_NS];
const DATES: &[u8] = &[column::DATE];
/// Transforms with the types that they treat alike.
const PAIRS: [(&str, u8, &[u8]); 18] = [
    ("Identity", transform::IDENTITY, &column::ALL),
    ("Truncate of Int", transform::TRUNCATE, &[column::INT]),
    ("Truncate of Long", transform::TRUNCATE, &[column::LONG]),
    ("Truncate of String", transform::TRUNCATE, &[column::STRING]),
    ("Truncate of Binary", transform::TRUNCATE, &[column::BINARY]),
    ("Year of Date", transform::YEAR, DATES),
    ("Year of microseconds", transform::YEAR, MICROS),
    ("Year of nanoseconds", transform::YEAR, NANOS),
    ("Month of Date", transform::MONTH, DATES),
    ("Month of microseconds", transform::MONTH, MICROS),
    ("Month of nanoseconds", transform::MONTH, NANOS),
    ("Day of Date", transform::DAY, DATES),
    ("Day of microseconds", transform::DAY, MICROS),
    ("Day of nanoseconds", transform::DAY, NANOS),
    ("Hour of microseconds", transform::HOUR, MICROS),
    ("Hour of nanoseconds", transform::HOUR, NANOS),
    ("Void", transform::VOID, &column::ALL),
    ("Unknown", transform::UNKNOWN, &column::ALL),
];
/// The rows of a table below its named ones: pairs without a result type, and bytes refused with 2, 3 or 4.
const NO_PAIR: usize = PAIRS.len();
const REFUSED: usize = PAIRS.len() + 1;
const PAIR_ROWS: usize = PAIRS.len() + 2;
const REFUSED_BYTES: &str = "bytes or buffer refused";
const OPERATOR_ROWS: usize = operator::ALL.len() + 1;
/// What a rule may be about: the two questions, and the transform of one value.
const ASKED: [&str; 3] = ["inclusive", "strict", "value"];

/// How many answers of each number.
type Row = [u64; NUMBERS];

pub struct Tally {
    projections: [[Row; PAIR_ROWS]; 2],
    operators: [[Row; OPERATOR_ROWS]; 2],
    values: [Row; PAIR_ROWS],
    held: [Row; OPERATOR_ROWS],
    /// For each rule and what was asked: how often the crate differs, how often it does not.
    rules: [[[u64; 2]; ASKED.len()]; Rule::ALL.len()],
    /// Leaves met, for each operator, type and transform.
    leaves: Vec<u64>,
    pub differences: u64,
}

impl Tally {
    pub fn new() -> Tally {
        Tally {
            projections: [[[0; NUMBERS]; PAIR_ROWS]; 2],
            operators: [[[0; NUMBERS]; OPERATOR_ROWS]; 2],
            values: [[0; NUMBERS]; PAIR_ROWS],
            held: [[0; NUMBERS]; OPERATOR_ROWS],
            rules: [[[0; 2]; ASKED.len()]; Rule::ALL.len()],
            leaves: vec![0; operator::ALL.len() * column::ALL.len() * transform::ALL.len()],
            differences: 0,
        }
    }

    pub fn projection(&mut self, question: Question, leaf: Option<&Leaf>, expected: &Expected) {
        let asked = question as usize;
        let number = expected.answer.number as usize;
        self.rule(asked, expected.rule);
        match leaf {
            Some(leaf) if expected.answer.number != number::SHORT_BUFFER => {
                self.projections[asked][pair_row(leaf.transform, leaf.column)][number] += 1;
                self.operators[asked][operator_row(leaf.operator)][number] += 1;
                self.leaves[leaf_place(leaf)] += 1;
            }
            _ => {
                self.projections[asked][REFUSED][number] += 1;
                self.operators[asked][operator::ALL.len()][number] += 1;
            }
        }
    }

    pub fn value(&mut self, transform: u8, column: u8, expected: &Expected) {
        let refused = (number::SHORT_BUFFER..=number::NOT_UTF8).contains(&expected.answer.number);
        let row = if refused { REFUSED } else { pair_row(transform, column) };
        self.values[row][expected.answer.number as usize] += 1;
        self.rule(ASKED.len() - 1, expected.rule);
    }

    pub fn held(&mut self, leaf: Option<&Leaf>, expected: &Expected) {
        let row = leaf.map_or(operator::ALL.len(), |leaf| operator_row(leaf.operator));
        self.held[row][expected.answer.number as usize] += 1;
    }

    fn rule(&mut self, asked: usize, applied: Option<Applied>) {
        if let Some(Applied { rule, differs }) = applied {
            self.rules[rule as usize][asked][usize::from(!differs)] += 1;
        }
    }

    /// All answers compared.
    pub fn answers(&self) -> u64 {
        let projections = self.projections.iter().flatten().flatten().sum::<u64>();
        projections + self.values.iter().flatten().sum::<u64>() + self.held.iter().flatten().sum::<u64>()
    }

    /// Tables of all that was counted.
    pub fn tables(&self) -> String {
        let pairs: Vec<&str> = PAIRS.iter().map(|pair| pair.0).chain(["no result type", REFUSED_BYTES]).collect();
        let operators: Vec<&str> =
            operator::ALL.iter().map(|operator| operator_name(*operator)).chain([REFUSED_BYTES]).collect();
        let mut text = String::new();
        for (asked, question) in ASKED.iter().take(2).enumerate() {
            table(&mut text, &format!("{question} projection"), &pairs, &self.projections[asked]);
            table(&mut text, &format!("{question} projection"), &operators, &self.operators[asked]);
        }
        table(&mut text, "transform of one value", &pairs, &self.values);
        table(&mut text, "holds-test", &operators, &self.held);
        text + &self.rule_table() + &self.reached()
    }

    fn rule_table(&self) -> String {
        let mut text = format!("{:32}{:>10}{:>12}{:>18}\n", "rule", "question", "differs", "named but equal");
        for (rule, asked) in Rule::ALL.iter().flat_map(|rule| (0..ASKED.len()).map(move |asked| (rule, asked))) {
            let [differs, equal] = self.rules[*rule as usize][asked];
            if differs + equal != 0 {
                writeln!(text, "{:32}{:>10}{differs:>12}{equal:>18}", rule.name(), ASKED[asked])
                    .expect("a String takes every text");
            }
        }
        text
    }

    fn reached(&self) -> String {
        let met = self.leaves.iter().filter(|count| **count != 0).count();
        let fewest = self.leaves.iter().min().copied().unwrap_or(0);
        format!(
            "\noperator, type and transform: {met} of {} combinations met, the rarest in {fewest} answers\n",
            self.leaves.len()
        )
    }
}

/// One table: a line for each row that has counts.
fn table(text: &mut String, title: &str, names: &[&str], rows: &[Row]) {
    *text += &format!("{title:24}");
    *text += &(0..NUMBERS).map(|number| format!("{number:>10}")).collect::<String>();
    *text += "\n";
    for (name, row) in names.iter().zip(rows).filter(|(_, row)| row.iter().sum::<u64>() != 0) {
        let counts: String = row.iter().map(|count| format!("{count:>10}")).collect();
        *text += &format!("{name:24}{counts}\n");
    }
    *text += "\n";
}

fn pair_row(transform: u8, column: u8) -> usize {
    PAIRS.iter().position(|(_, t, columns)| *t == transform && columns.contains(&column)).unwrap_or(NO_PAIR)
}

fn operator_row(operator: u16) -> usize {
    operator::ALL.iter().position(|other| *other == operator).unwrap_or(operator::ALL.len())
}

fn leaf_place(leaf: &Leaf) -> usize {
    let column = usize::from(leaf.column) - 1;
    (operator_row(leaf.operator) * column::ALL.len() + column) * transform::ALL.len() + usize::from(leaf.transform)
}
