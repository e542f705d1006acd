//! The calls that are timed: one pass asks the same question of each leaf (or value) of a kind, once. All sides' answers
//! are compared before that.

use std::hint::black_box;

use beside::crate_side::{self, Literals, Prepared, PreparedValue};
use beside::leaf::{Answer, Leaf, Question, SHEET_BUFFER, Transformed, VALUE_BUFFER, VERDICT_BUFFER, Value, number};
use beside::port;
use beside::sheet::{pooled_of, predicate_of, sheet_of, value_of, value_record};
use timing::{a_call, in_turn, pass};

use crate::files::{Pools, Verdicts};
use crate::kinds::{Projections, Values};
use crate::older::{Asked, Leaves};
use crate::rust_crate::{self, Parts};

/// Nanoseconds a call, in the order of the sides.
pub type Times = timing::Times<5>;

/// The sides: the crate from what is ready and from literals, the port's C name, the port's Rust crate from what is ready
/// and from literals.
pub const CRATE: usize = 0;
pub const CRATE_LITERALS: usize = 1;
pub const C_NAME: usize = 2;
pub const RUST: usize = 3;
pub const RUST_LITERALS: usize = 4;

/// One projection of the leaves of a kind.
pub fn time_projection(kind: &Projections) -> Times {
    let (question, leaves) = (kind.question, &kind.leaves);
    let sheets: Vec<Vec<u8>> = leaves.iter().map(sheet_of).collect();
    let mut out = vec![0; SHEET_BUFFER];
    for (leaf, sheet) in leaves.iter().zip(&sheets) {
        compare_projection(question, leaf, sheet, &mut out);
    }
    let prepare = |leaf: &Leaf| crate_side::prepare(leaf).expect("a leaf of the domain");
    let prepared: Vec<Prepared> = leaves.iter().map(prepare).collect();
    let literals = |leaf: &Leaf| Literals::new(leaf).expect("a leaf of the domain");
    let literals: Vec<Literals> = leaves.iter().map(literals).collect();
    let typed: Vec<weighpick::Leaf> = sheets.iter().map(|sheet| rust_crate::leaf(sheet)).collect();
    let parts: Vec<Parts> = typed.iter().map(Parts::of).collect();
    let project = |leaf: &Prepared| match question {
        Question::Inclusive => leaf.project(),
        Question::Strict => leaf.strict_project(),
    };
    let times = in_turn([
        pass(&prepared, project),
        pass(&literals, |leaf| project(&leaf.bound())),
        pass(&sheets, |sheet| port::project(question, sheet, black_box(&mut out))),
        pass(&typed, |leaf| rust_crate::project(question, leaf)),
        pass(&parts, |parts| rust_crate::project(question, &parts.leaf())),
    ]);
    a_call(times, leaves.len())
}

/// The strict projection, or the third question, of the leaves of a kind, by the port alone.
pub fn time_older(kind: &Leaves) -> Times {
    let asked = kind.asked;
    let sheets: Vec<Vec<u8>> = kind.leaves.iter().map(sheet_of).collect();
    let typed: Vec<weighpick::Leaf> = sheets.iter().map(|sheet| rust_crate::leaf(sheet)).collect();
    let parts: Vec<Parts> = typed.iter().map(Parts::of).collect();
    let mut out = vec![0; SHEET_BUFFER];
    for (sheet, leaf) in sheets.iter().zip(&typed) {
        let [strict, older] = [Asked::Strict, Asked::Older].map(|asked| compare_strictly(asked, sheet, leaf, &mut out));
        assert_eq!(strict != older, kind.lifted, "{}: {leaf}", kind.name);
    }
    let times = in_turn([
        None,
        None,
        pass(&sheets, |sheet| strictly(asked, sheet, black_box(&mut out))),
        pass(&typed, |leaf| rust_crate::strictly(asked, leaf)),
        pass(&parts, |parts| rust_crate::strictly(asked, &parts.leaf())),
    ]);
    a_call(times, sheets.len())
}

/// One of the two strict questions, by its C name.
#[inline]
fn strictly(asked: Asked, sheet: &[u8], out: &mut [u8]) -> (u32, u64) {
    match asked {
        Asked::Strict => port::project(Question::Strict, sheet, out),
        Asked::Older => port::strict_project_older(sheet, out),
    }
}

/// The holds-test of a partition value by the inclusive predicate of each leaf of a kind. The crate's published files have
/// none.
pub fn time_holds(kind: &Projections) -> Times {
    let mut asked = Vec::new();
    let mut out = vec![0; SHEET_BUFFER];
    for (leaf, content) in kind.leaves.iter().zip(&kind.contents) {
        let (_, count) = port::project(Question::Inclusive, &sheet_of(leaf), &mut out);
        let mut partition = [0; VALUE_BUFFER];
        let row = value_record(&Value::Present(content.clone()));
        let (answer, _) = port::transform(leaf.column, leaf.transform, leaf.width, &row, &mut partition);
        assert_eq!(answer, number::WRITTEN, "{}: a row has a partition value", kind.name);
        asked.push((out[..count as usize].to_vec(), partition));
    }
    let typed: Vec<_> = asked.iter().map(|(sheet, partition)| rust_crate::test(sheet, partition)).collect();
    for ((sheet, record), (predicate, value)) in asked.iter().zip(&typed) {
        assert_eq!(port::holds(sheet, record) == number::WRITTEN, predicate.holds(value) == Ok(true), "{}", kind.name);
    }
    let times = in_turn([
        None,
        None,
        pass(&asked, |(sheet, record)| port::holds(sheet, record)),
        pass(&typed, |(predicate, value)| predicate.holds(value)),
        None,
    ]);
    a_call(times, asked.len())
}

/// The test of each summary of a kind by its sheet. The crate's published files have none.
pub fn time_verdict(kind: &Verdicts) -> Times {
    let asked = &kind.asked;
    let mut out = [0; VERDICT_BUFFER];
    let typed: Vec<_> = asked.iter().map(|(sheet, summary)| rust_crate::test_file(sheet, summary)).collect();
    for ((sheet, summary), (predicate, file)) in asked.iter().zip(&typed) {
        let (number, count) = port::test_summary(sheet, summary, &mut out);
        assert_eq!((number, count), (number::WRITTEN, 1), "{}: a verdict", kind.name);
        let again = predicate.test_summary(file).expect("no refusal");
        assert_eq!(again.number(), out[0], "{}: {predicate} of {file}", kind.name);
    }
    let times = in_turn([
        None,
        None,
        pass(asked, |(sheet, summary)| port::test_summary(sheet, summary, black_box(&mut out))),
        pass(&typed, |(predicate, file)| predicate.test_summary(file)),
        None,
    ]);
    a_call(times, asked.len())
}

/// The pooling of each two summaries of a kind. The crate's published files have none.
pub fn time_pool(kind: &Pools) -> Times {
    let pairs = &kind.pairs;
    let typed: Vec<_> = pairs.iter().map(|(first, second)| [first, second].map(|s| rust_crate::file(s))).collect();
    for ((first, second), [one, other]) in pairs.iter().zip(&typed) {
        let (number, numbers) = port::pool(first, second);
        assert_eq!(number, number::WRITTEN, "{}: a pooled summary", kind.name);
        let again = one.pool(other).expect("no refusal");
        assert_eq!(again.as_bytes(), pooled_of(first, second, numbers), "{}: {one} and {other}", kind.name);
    }
    let times = in_turn([
        None,
        None,
        pass(pairs, |(first, second)| port::pool(first, second)),
        pass(&typed, |[one, other]| one.pool(other)),
        None,
    ]);
    a_call(times, pairs.len())
}

/// The transform of the values of a kind. What is ready is the crate's transform function; its other side makes it anew.
pub fn time_transform(kind: &Values) -> Times {
    let (column, transform, width) = (kind.column, kind.transform, kind.width);
    let prepare = |c: &Vec<u8>| PreparedValue::new(column, transform, width, c).expect("a value of the domain");
    let prepared: Vec<PreparedValue> = kind.contents.iter().map(prepare).collect();
    let values: Vec<Value> = kind.contents.iter().map(|c| Value::Present(c.clone())).collect();
    let records: Vec<_> = values.iter().map(value_record).collect();
    let (typed_column, typed_transform) = rust_crate::setting(column, transform, width);
    let typed: Vec<_> = records.iter().map(|record| rust_crate::value(typed_column, record)).collect();
    let mut out = [0; VALUE_BUFFER];
    for ((value, record), typed) in values.iter().zip(&records).zip(&typed) {
        let (number, count) = port::transform(column, transform, width, record, &mut out);
        let answer = Transformed { number, value: value_of(&out[..count as usize]) };
        assert_eq!(answer, crate_side::transform(column, transform, width, value), "{}: {value:?}", kind.name);
        let again = typed_transform.transform_literal(typed_column, typed).expect("a value of the domain");
        let result = typed_transform.result_type(typed_column).expect("a valid pair");
        assert_eq!(again.to_record(result).expect("of the result type"), out, "{}: {value:?}", kind.name);
    }
    let times = in_turn([
        pass(&prepared, PreparedValue::transform_literal),
        pass(&prepared, PreparedValue::transform_anew),
        pass(&records, |record| {
            let (column, transform, width) = black_box((column, transform, width));
            port::transform(column, transform, width, record, black_box(&mut out))
        }),
        pass(&typed, |value| {
            let (transform, column) = black_box((typed_transform, typed_column));
            transform.transform_literal(column, value)
        }),
        None,
    ]);
    a_call(times, records.len())
}

/// The three sides give the same answer.
fn compare_projection(question: Question, leaf: &Leaf, sheet: &[u8], out: &mut [u8]) {
    let (number, count) = port::project(question, sheet, out);
    let written = &out[..count as usize];
    let answer = Answer { number, predicate: predicate_of(written) };
    assert_eq!(answer, crate_side::project(question, leaf), "{leaf:?}");
    let typed = rust_crate::project(question, &rust_crate::leaf(sheet)).expect("no refusal");
    assert_eq!(typed.expect("a predicate").as_bytes(), written, "{leaf:?}");
}

/// The answer sheet of a leaf to one of the two strict questions, which both sides of the port give.
fn compare_strictly(asked: Asked, sheet: &[u8], leaf: &weighpick::Leaf, out: &mut [u8]) -> Vec<u8> {
    let (number, count) = strictly(asked, sheet, out);
    let written = &out[..count as usize];
    assert_eq!(number, number::WRITTEN, "{leaf}");
    let typed = rust_crate::strictly(asked, leaf).expect("no refusal");
    assert_eq!(typed.expect("a predicate").as_bytes(), written, "{leaf}");
    written.to_vec()
}
