//! The crate's side: leaves and values are handed to `Transform::project`, `Transform::strict_project` and
//! `transform_literal` as they are published, and the answers read back in document 01's numbers.
//!
//! The crate never sees bytes, so 2, 3 and 4 are not its answers: a leaf or value that cannot be built is answered 3,
//! or 4 if a string is not UTF-8, on this side. 5 comes from the crate's `result_type`, 6 and 7 from its error kinds,
//! 8 from a panic that is caught.

use std::cell::Cell;
use std::panic::{AssertUnwindSafe, catch_unwind};
use std::sync::Once;

use iceberg::expr::{BoundPredicate, Predicate, PredicateOperator};
use iceberg::spec::{Datum, Transform, Type};
use iceberg::transform::{BoxedTransformFunction, create_transform_function};

use crate::crate_types::{
    PARTITION_NAME, bound, datum_of, error_number, operator_of, primitive_type, read_datum, read_predicate,
    transform_of,
};
use crate::leaf::{self, Answer, Leaf, Question, Transformed, Value, column, number};

/// How the program ends if a stand-in was reached.
const STAND_IN_REACHED: i32 = 4;

/// The crate's answer to one projection of a leaf.
pub fn project(question: Question, leaf: &Leaf) -> Answer {
    let prepared = match prepared(leaf) {
        Ok(prepared) => prepared,
        Err(number) => return Answer::without(number),
    };
    let answer = caught(|| match question {
        Question::Inclusive => prepared.project(),
        Question::Strict => prepared.strict_project(),
    });
    match answer {
        Err(number) => Answer::without(number),
        Ok(None) => Answer::without(number::NONE),
        Ok(Some(predicate)) => {
            Answer { number: number::WRITTEN, predicate: Some(read_predicate(&predicate, prepared.result)) }
        }
    }
}

/// The crate's answer to the transform of one value. Its `transform_literal` takes no missing value: that missing
/// gives missing, after 5 and Unknown's 7, is document 01's rule.
pub fn transform(column: u8, transform: u8, width: u32, value: &Value) -> Transformed {
    if !leaf::is_setting(column, transform, width) {
        return Transformed::without(number::MALFORMED);
    }
    let answer = match value {
        Value::Missing => function_of(column, transform, width).map(|_| None),
        Value::Present(content) if !leaf::is_content(column, content) => Err(number::MALFORMED),
        Value::Present(content) => {
            PreparedValue::new(column, transform, width, content).and_then(|v| caught(|| v.transform_literal()))
        }
    };
    match answer {
        Err(number) => Transformed::without(number),
        Ok(None) => Transformed { number: number::WRITTEN, value: Some(Value::Missing) },
        Ok(Some(datum)) => {
            let result = result_column(column, transform, width);
            let content = read_datum(&datum, result.expect("a value was given, so there is a result type"));
            Transformed { number: number::WRITTEN, value: Some(Value::Present(content)) }
        }
    }
}

/// The crate's `result_type` as document 01's column type; none where it errs (5).
pub fn result_column(column: u8, transform: u8, width: u32) -> Option<u8> {
    let source = Type::Primitive(primitive_type(column)?);
    let result = transform_of(transform, width)?.result_type(&source).ok()?;
    column::ALL.into_iter().find(|c| primitive_type(*c).as_ref() == result.as_primitive_type())
}

/// A leaf as the crate takes it, built beforehand: its methods call the crate and nothing else.
pub struct Prepared {
    transform: Transform,
    predicate: BoundPredicate,
    result: u8,
}

/// The leaf made ready for the crate; none where `project` would answer 3, 4 or 5.
pub fn prepare(leaf: &Leaf) -> Option<Prepared> {
    prepared(leaf).ok()
}

impl Prepared {
    #[inline]
    pub fn project(&self) -> iceberg::Result<Option<Predicate>> {
        self.transform.project(PARTITION_NAME, &self.predicate)
    }

    #[inline]
    pub fn strict_project(&self) -> iceberg::Result<Option<Predicate>> {
        self.transform.strict_project(PARTITION_NAME, &self.predicate)
    }
}

/// A leaf's literals as the crate's, with what they are asked; the bound predicate is built by `bound`, without what
/// `Predicate::bind` does beside it.
pub struct Literals {
    operator: PredicateOperator,
    column: u8,
    transform: Transform,
    literals: Vec<Datum>,
    result: u8,
}

impl Literals {
    /// The literals of a leaf; none where `project` would answer 3, 4 or 5.
    pub fn new(leaf: &Leaf) -> Option<Literals> {
        literals_of(leaf).ok()
    }

    #[inline]
    pub fn bound(&self) -> Prepared {
        let predicate = bound(self.operator, self.column, self.literals.clone());
        Prepared { transform: self.transform, predicate, result: self.result }
    }
}

/// A value and its transform as the crate takes them, built beforehand.
pub struct PreparedValue {
    transform: Transform,
    function: BoxedTransformFunction,
    datum: Datum,
}

impl PreparedValue {
    /// The value made ready for the crate, or the number that refuses it.
    pub fn new(column: u8, transform: u8, width: u32, content: &[u8]) -> Result<PreparedValue, u32> {
        let datum = datum_of(column, content)?;
        let function = function_of(column, transform, width)?;
        let transform = transform_of(transform, width).ok_or(number::MALFORMED)?;
        Ok(PreparedValue { transform, function, datum })
    }

    #[inline]
    pub fn transform_literal(&self) -> iceberg::Result<Option<Datum>> {
        self.function.transform_literal(&self.datum)
    }

    /// The same with the transform's function made anew.
    #[inline]
    pub fn transform_anew(&self) -> iceberg::Result<Option<Datum>> {
        create_transform_function(&self.transform)?.transform_literal(&self.datum)
    }
}

fn prepared(leaf: &Leaf) -> Result<Prepared, u32> {
    literals_of(leaf).map(|literals| literals.bound())
}

fn literals_of(leaf: &Leaf) -> Result<Literals, u32> {
    if !leaf.is_well_formed() {
        return Err(number::MALFORMED);
    }
    let operator = operator_of(leaf.operator).ok_or(number::MALFORMED)?;
    let transform = transform_of(leaf.transform, leaf.width).ok_or(number::MALFORMED)?;
    let literals: Result<Vec<Datum>, u32> = leaf.literals.iter().map(|c| datum_of(leaf.column, c)).collect();
    let literals = literals?;
    let result = result_column(leaf.column, leaf.transform, leaf.width).ok_or(number::NO_RESULT_TYPE)?;
    Ok(Literals { operator, column: leaf.column, transform, literals, result })
}

/// The transform's function, or the number that refuses it: 5 from `result_type`, then Unknown's 7.
fn function_of(column: u8, transform: u8, width: u32) -> Result<BoxedTransformFunction, u32> {
    let transform_kind = transform_of(transform, width).ok_or(number::MALFORMED)?;
    result_column(column, transform, width).ok_or(number::NO_RESULT_TYPE)?;
    create_transform_function(&transform_kind).map_err(|error| error_number(&error))
}

thread_local! {
    /// Whether this thread is inside a call of the crate.
    static ASKING: Cell<bool> = const { Cell::new(false) };
}
static HOOK: Once = Once::new();

/// What one call of the crate gives, its errors as numbers and a panic as 8.
fn caught<T>(ask: impl FnOnce() -> iceberg::Result<T>) -> Result<T, u32> {
    HOOK.call_once(watch_panics);
    ASKING.set(true);
    let answer = catch_unwind(AssertUnwindSafe(ask));
    ASKING.set(false);
    match answer {
        Err(_) => Err(number::PANIC),
        Ok(answer) => answer.map_err(|error| error_number(&error)),
    }
}

/// A panic of the crate is an answer and printed nowhere. One of a stand-in is not the crate's: the program ends there
/// instead of calling it an 8. Panics outside the crate are reported as ever.
fn watch_panics() {
    let report = std::panic::take_hook();
    std::panic::set_hook(Box::new(move |panic| {
        if !ASKING.get() {
            return report(panic);
        }
        let text = panic.payload_as_str().unwrap_or_default();
        if text.contains("stand-in") || text.contains("unreachable") {
            eprintln!("not the crate's panic: {panic}");
            std::process::exit(STAND_IN_REACHED);
        }
    }));
}
