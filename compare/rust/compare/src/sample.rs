//! A sample of the crate's own answers, written as cases of the gate's program `cases` (crates/cases, whose format
//! tools/make-cases describes), so that the gate replays them without the crate at hand. The same cases come out each
//! time. Inputs that a rule is about carry the rule's answer, since the crate's is not the port's there, and are a group
//! of their own.

use std::collections::BTreeMap;
use std::io;

use beside::leaf::{LITERALS, Leaf, Question, SHEET_BUFFER, VALUE_BUFFER, Value, column, number, operator, transform};
use beside::sheet::{sheet_of, value_record};

use crate::comparison::QUESTIONS;
use crate::draw::{Asked, Draw};
use crate::expect::{self, Expected};
use crate::rules::Rule;
use crate::types::is_transformed;

const SEED: u64 = 1;
/// The groups' numbers, which follow those of tools/make-cases, and their names in the gate's lines.
const OF_THE_CRATE: u8 = 16;
const OF_A_RULE: u8 = 17;
const GROUPS: [(u8, &str); 2] = [(OF_THE_CRATE, "the crate's answers"), (OF_A_RULE, "where the specification decides")];
/// The routines' numbers in a case.
const PROJECT: u8 = 1;
const STRICT_PROJECT: u8 = 2;
const TRANSFORM: u8 = 3;
/// What the lent buffer has over the least, in turn.
const EXTRA: [usize; 3] = [0, 1, 44];
/// Leaves for each operator, and values, of a pair under which a literal is transformed; and of another pair.
const LEAVES: usize = 4;
const VALUES: usize = 24;
const OTHER_VALUES: usize = 2;
/// Literals of a set in the sample, but for the few full ones, and the width of those.
const MOST: usize = 8;
const FULL_WIDTH: u32 = 10;
/// Inputs for each rule and routine, and how many such there are: each rule has three routines, but sets of days and
/// prefixes no transform of one value.
const RULED: usize = 20;
const RULED_KINDS: usize = 3 * Rule::ALL.len() - 2;

/// How many inputs a rule has for a routine.
type Found = BTreeMap<(Rule, u8), usize>;

/// One case of the gate's program; for a projection, type, transform and width stand in the sheet.
struct Case {
    group: u8,
    routine: u8,
    number: u8,
    head: (u8, u8, u32),
    input: Vec<u8>,
    result: Vec<u8>,
    lent: usize,
}

struct Sample {
    cases: Vec<Case>,
    draw: Draw,
}

/// Writes the sample to a file; hands back the lines that the gate's program prints of it.
pub fn write(file: &str) -> io::Result<String> {
    let mut sample = Sample { cases: Vec::new(), draw: Draw::new(SEED) };
    for (column, transform) in column::ALL.into_iter().flat_map(|c| transform::ALL.into_iter().map(move |t| (c, t))) {
        sample.leaves(column, transform);
        sample.values(column, transform);
    }
    sample.full_sets();
    sample.ruled();
    sample.cases.sort_by_key(|case| (case.group, case.number));
    std::fs::write(file, sample.cases.iter().flat_map(bytes).collect::<Vec<u8>>())?;
    Ok(lines(&sample.cases))
}

impl Sample {
    fn leaves(&mut self, column: u8, transform: u8) {
        for operator in operator::ALL {
            let count = if is_transformed(column, transform) && operator >= operator::LESS { LEAVES } else { 1 };
            for _ in 0..count {
                let leaf = self.draw.leaf_of(operator, column, transform, MOST);
                QUESTIONS.iter().for_each(|question| self.leaf(*question, &leaf));
            }
        }
    }

    fn values(&mut self, column: u8, transform: u8) {
        let count = if is_transformed(column, transform) { VALUES } else { OTHER_VALUES };
        for _ in 0..count {
            let asked = self.draw.asked_of(column, transform);
            self.value(&asked);
        }
    }

    /// Sets of the most literals, that all have a partition value, so that their answers are long.
    fn full_sets(&mut self) {
        let kinds = [
            (column::INT, transform::TRUNCATE, operator::IN),
            (column::STRING, transform::TRUNCATE, operator::NOT_IN),
            (column::DATE, transform::YEAR, operator::IN),
            (column::TIMESTAMP, transform::DAY, operator::IN),
            (column::TIMESTAMPTZ_NS, transform::MONTH, operator::NOT_IN),
            (column::BINARY, transform::IDENTITY, operator::IN),
            (column::BINARY, transform::TRUNCATE, operator::NOT_IN),
        ];
        for (column, transform, operator) in kinds {
            let width = if transform == transform::TRUNCATE { FULL_WIDTH } else { 0 };
            let mut literals = Vec::new();
            while literals.len() < LITERALS {
                let content = self.draw.content(column, transform, width);
                let asked = Asked { column, transform, width, value: Value::Present(content.clone()) };
                if answer_to(&asked).answer.number == number::WRITTEN {
                    literals.push(content);
                }
            }
            let leaf = Leaf { operator, column, transform, width, literals };
            let question = if operator == operator::IN { Question::Inclusive } else { Question::Strict };
            self.leaf(question, &leaf);
        }
    }

    /// Random inputs, until each rule has enough of them for each question and for values.
    fn ruled(&mut self) {
        let mut found = Found::new();
        while found.values().filter(|count| **count == RULED).count() < RULED_KINDS {
            let leaf = self.draw.leaf();
            for question in QUESTIONS {
                let expected = expect::projection(question, &Ok(leaf.clone()), SHEET_BUFFER);
                if is_wanted(&mut found, &expected, routine(question)) {
                    self.leaf(question, &leaf);
                }
            }
            let asked = self.draw.asked();
            if let Value::Present(_) = asked.value
                && is_wanted(&mut found, &answer_to(&asked), TRANSFORM)
            {
                self.value(&asked);
            }
        }
    }

    fn leaf(&mut self, question: Question, leaf: &Leaf) {
        let expected = expect::projection(question, &Ok(leaf.clone()), SHEET_BUFFER);
        self.push(routine(question), (0, 0, 0), sheet_of(leaf), expected, SHEET_BUFFER);
    }

    fn value(&mut self, asked: &Asked) {
        let head = (asked.column, asked.transform, asked.width);
        self.push(TRANSFORM, head, value_record(&asked.value).to_vec(), answer_to(asked), VALUE_BUFFER);
    }

    fn push(&mut self, routine: u8, head: (u8, u8, u32), input: Vec<u8>, expected: Expected, least: usize) {
        let differs = expected.rule.is_some_and(|applied| applied.differs);
        let group = if differs { OF_A_RULE } else { OF_THE_CRATE };
        let lent = least + EXTRA[self.cases.len() % EXTRA.len()];
        self.cases.push(Case {
            group,
            routine,
            number: expected.answer.number as u8,
            head,
            input,
            result: expected.answer.bytes,
            lent,
        });
    }
}

fn routine(question: Question) -> u8 {
    match question {
        Question::Inclusive => PROJECT,
        Question::Strict => STRICT_PROJECT,
    }
}

fn answer_to(asked: &Asked) -> Expected {
    expect::transformed(asked.column, asked.transform, asked.width, &Ok(asked.value.clone()), VALUE_BUFFER)
}

/// Whether an input is about a rule that has too few yet; it is counted then.
fn is_wanted(found: &mut Found, expected: &Expected, routine: u8) -> bool {
    let Some(applied) = expected.rule.filter(|applied| applied.differs) else {
        return false;
    };
    let count = found.entry((applied.rule, routine)).or_insert(0);
    let wanted = *count < RULED;
    *count += usize::from(wanted);
    wanted
}

/// A case as tools/make-cases writes it: a header of 20 bytes, the one input that these routines take, and the result.
fn bytes(case: &Case) -> Vec<u8> {
    let (column, transform, width) = case.head;
    let mut bytes = vec![case.group, case.routine, case.number, column, transform, 0];
    bytes.extend(width.to_le_bytes());
    for length in [case.input.len(), 0, 0, case.result.len(), case.lent] {
        bytes.extend((length as u16).to_le_bytes());
    }
    bytes.extend(&case.input);
    bytes.extend(&case.result);
    bytes
}

/// The gate's line for each group and answer; the cases stand in that order.
fn lines(cases: &[Case]) -> String {
    let mut counts: BTreeMap<(u8, u8), usize> = BTreeMap::new();
    cases.iter().for_each(|case| *counts.entry((case.group, case.number)).or_insert(0) += 1);
    let name = |group: u8| GROUPS.iter().find(|(number, _)| *number == group).map_or("", |(_, name)| *name);
    counts
        .iter()
        .map(|((group, number), count)| format!("{}, answer {number}: {count} right, 0 wrong\n", name(*group)))
        .collect()
}
