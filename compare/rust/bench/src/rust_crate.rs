//! The port's Rust crate (bindings/rust): its types, made of the bytes and numbers that the other sides are given.

use beside::leaf::Question;
use weighpick::{Leaf, Literal, Predicate, PredicateOperator, Refusal, Summary, Transform, Type, Value};

use crate::older::Asked;

/// A leaf that is ready.
pub fn leaf(sheet: &[u8]) -> Leaf {
    Leaf::from_bytes(sheet).expect("a leaf of the domain")
}

pub fn project(question: Question, leaf: &Leaf) -> Result<Option<Predicate>, Refusal> {
    match question {
        Question::Inclusive => leaf.project(),
        Question::Strict => leaf.strict_project(),
    }
}

pub fn strictly(asked: Asked, leaf: &Leaf) -> Result<Option<Predicate>, Refusal> {
    match asked {
        Asked::Strict => leaf.strict_project(),
        Asked::Older => leaf.strict_project_older(),
    }
}

/// What a caller has in hand before a leaf is built.
pub struct Parts {
    operator: PredicateOperator,
    column_type: Type,
    transform: Transform,
    literals: Vec<Literal>,
}

impl Parts {
    pub fn of(leaf: &Leaf) -> Parts {
        Parts {
            operator: leaf.operator(),
            column_type: leaf.column_type(),
            transform: leaf.transform(),
            literals: leaf.literals().collect(),
        }
    }

    /// Builds the leaf.
    #[inline]
    pub fn leaf(&self) -> Leaf {
        let leaf = match (self.operator.is_set(), self.literals.first()) {
            (false, None) => Leaf::unary(self.operator, self.column_type, self.transform),
            (false, Some(literal)) => Leaf::binary(self.operator, self.transform, literal),
            (true, _) => Leaf::set(self.operator, self.column_type, self.transform, &self.literals),
        };
        leaf.expect("a leaf of the domain")
    }
}

/// A predicate and a partition value to test with it.
pub fn test(answer: &[u8], partition: &[u8]) -> (Predicate, Value) {
    let predicate = Predicate::from_bytes(answer).expect("an answer sheet");
    let value = value(predicate.column_type(), partition);
    (predicate, value)
}

/// A predicate and a summary to test with it.
pub fn test_file(answer: &[u8], summary: &[u8]) -> (Predicate, Summary) {
    let predicate = Predicate::from_bytes(answer).expect("an answer sheet");
    (predicate, file(summary))
}

pub fn file(summary: &[u8]) -> Summary {
    Summary::from_bytes(summary).expect("a summary")
}

pub fn setting(column: u8, transform: u8, width: u32) -> (Type, Transform) {
    let column = Type::from_number(column).expect("a listed type");
    (column, Transform::from_numbers(transform, width).expect("a listed transform"))
}

pub fn value(column_type: Type, record: &[u8]) -> Value {
    Value::from_record(column_type, record).expect("a value of the type")
}
