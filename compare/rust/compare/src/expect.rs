//! What the port must answer: 2, 3 and 4 as document 01 rules on bytes (`reader`); else what the crate answers; and
//! where docs/DIFFERENCES.md names the input (`rules`), what the specification gives (`specification`).

use beside::crate_side;
use beside::leaf::{
    ANSWER_LITERALS, Answer, LITERALS, Leaf, Question, SHEET_BUFFER, Transformed, VALUE_BUFFER, Value, number,
    transform,
};
use beside::sheet::{sheet_of, value_record};

use crate::meets::meets;
use crate::reader;
use crate::rules::{self, Rule};
use crate::specification;

/// An answer as the routines give it: the number, and the bytes written.
#[derive(PartialEq, Eq)]
pub struct Written {
    pub number: u32,
    pub bytes: Vec<u8>,
}

/// An expected answer, and the rule that it rests on, if it is not the crate's.
pub struct Expected {
    pub answer: Written,
    pub rule: Option<Applied>,
}

/// A rule at one input, and whether the crate's answer is another there.
#[derive(Clone, Copy)]
pub struct Applied {
    pub rule: Rule,
    pub differs: bool,
}

impl Expected {
    /// An answer that writes nothing.
    fn unwritten(number: u32) -> Expected {
        Expected { answer: Written { number, bytes: Vec::new() }, rule: None }
    }

    /// The rule's answer if there is one, else the crate's.
    fn decided(of_crate: Written, ruled: Option<(Rule, Written)>) -> Expected {
        match ruled {
            None => Expected { answer: of_crate, rule: None },
            Some((rule, answer)) => {
                let differs = answer != of_crate;
                Expected { answer, rule: Some(Applied { rule, differs }) }
            }
        }
    }
}

/// One projection of a sheet that was read to a leaf or refused, into a buffer of so many bytes.
pub fn projection(question: Question, read: &Result<Leaf, u32>, lent: usize) -> Expected {
    match read {
        _ if lent < SHEET_BUFFER => Expected::unwritten(number::SHORT_BUFFER),
        Err(number) => Expected::unwritten(*number),
        Ok(leaf) => {
            let rule = rules::for_leaf(question, leaf);
            let ruled = rule.map(|rule| (rule, answer_sheet(leaf, specification::answer(question, leaf))));
            Expected::decided(projection_of_crate(question, leaf), ruled)
        }
    }
}

/// The transform of one value, of which the record was read or refused.
pub fn transformed(column: u8, transform: u8, width: u32, read: &Result<Value, u32>, lent: usize) -> Expected {
    match read {
        _ if lent < VALUE_BUFFER => Expected::unwritten(number::SHORT_BUFFER),
        Err(number) => Expected::unwritten(*number),
        Ok(value) => {
            let ruled = content(value).and_then(|content| {
                let rule = rules::for_value(column, transform, content)?;
                Some((rule, result_record(specification::transformed(column, transform, width, content))))
            });
            Expected::decided(transformed_of_crate(column, transform, width, value), ruled)
        }
    }
}

/// The crate's answer to a projection.
pub fn projection_of_crate(question: Question, leaf: &Leaf) -> Written {
    answer_sheet(leaf, crate_side::project(question, leaf))
}

/// The crate's answer to a transform.
pub fn transformed_of_crate(column: u8, transform: u8, width: u32, value: &Value) -> Written {
    result_record(crate_side::transform(column, transform, width, value))
}

/// The holds-test of a leaf and a value that were read, or refused. The crate has none.
pub fn held(read: &Result<(Leaf, Value), u32>) -> Expected {
    Expected::unwritten(match read {
        Err(number) => *number,
        Ok((leaf, value)) if meets(leaf, value) => number::WRITTEN,
        Ok(_) => number::NONE,
    })
}

/// Leaf and value of a holds-test: every 3, of the sheet and of the value, comes before any 4.
pub fn read_test(sheet: &[u8], record: &[u8]) -> Result<(Leaf, Value), u32> {
    let leaf = reader::sheet(sheet, ANSWER_LITERALS)?;
    let value = reader::value(leaf.column, record)?;
    reader::utf8(leaf.column, leaf.literals.iter().chain(content(&value)))?;
    Ok((leaf, value))
}

/// The leaf of a sheet to be projected, with check 4.
pub fn read_sheet(sheet: &[u8]) -> Result<Leaf, u32> {
    let leaf = reader::sheet(sheet, LITERALS)?;
    reader::utf8(leaf.column, leaf.literals.iter())?;
    Ok(leaf)
}

/// The value to be transformed: the head's rules on the numbers, the record's, then check 4.
pub fn read_value(column: u8, transform: u8, width: u32, record: &[u8]) -> Result<Value, u32> {
    reader::head(column, transform, width)?;
    let value = reader::value(column, record)?;
    reader::utf8(column, content(&value).into_iter())?;
    Ok(value)
}

fn content(value: &Value) -> Option<&Vec<u8>> {
    match value {
        Value::Missing => None,
        Value::Present(content) => Some(content),
    }
}

/// The answer sheet: the result type, transform 0, width 0, the literals in records 1, 2, .. in their order.
fn answer_sheet(leaf: &Leaf, answer: Answer) -> Written {
    let sheet = answer.predicate.map(|(operator, literals)| {
        let result = crate_side::result_column(leaf.column, leaf.transform, leaf.width);
        let column = result.expect("a predicate was given, so there is a result type");
        sheet_of(&Leaf { operator, column, transform: transform::IDENTITY, width: 0, literals })
    });
    Written { number: answer.number, bytes: sheet.unwrap_or_default() }
}

fn result_record(transformed: Transformed) -> Written {
    let record = transformed.value.map(|value| value_record(&value).to_vec());
    Written { number: transformed.number, bytes: record.unwrap_or_default() }
}
