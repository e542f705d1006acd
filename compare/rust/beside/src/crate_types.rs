//! Document 01's numbers and contents as the crate's types, and the crate's predicates, literals and errors as document
//! 01's numbers and contents. Nothing here projects or transforms; `crate_side` does.

use std::sync::{Arc, LazyLock};

use fnv::FnvHashSet;
use iceberg::expr::{
    BinaryExpression, Bind, BoundPredicate, BoundReference, Predicate, PredicateOperator, Reference, SetExpression,
    UnaryExpression,
};
use iceberg::spec::{Datum, NestedField, PrimitiveLiteral, PrimitiveType, Schema, Transform, Type};
use iceberg::{Error, ErrorKind};

use crate::leaf::{self, column, number};

/// The column's name in the leaf, and the name of the partition field that a projection speaks of.
const COLUMN_NAME: &str = "col";
pub const PARTITION_NAME: &str = "part";

/// A well-formed leaf as `Predicate::bind` would hand it on, without the rewriting that `bind` adds above the
/// reference functions.
pub fn bound(operator: PredicateOperator, column: u8, mut literals: Vec<Datum>) -> BoundPredicate {
    let term = COLUMNS[usize::from(column) - 1].clone();
    if operator.is_unary() {
        BoundPredicate::Unary(UnaryExpression::new(operator, term))
    } else if operator.is_binary() {
        BoundPredicate::Binary(BinaryExpression::new(operator, term, literals.remove(0)))
    } else {
        let set: FnvHashSet<Datum> = literals.into_iter().collect();
        BoundPredicate::Set(SetExpression::new(operator, term, set))
    }
}

/// Operator and literals of a predicate, the literals ascending. The crate keeps a set in no order.
pub fn read_predicate(predicate: &Predicate, result: u8) -> (u16, Vec<Vec<u8>>) {
    let (operator, term, mut literals) = match predicate {
        Predicate::Unary(e) => (e.op(), e.term(), vec![]),
        Predicate::Binary(e) => (e.op(), e.term(), vec![read_datum(e.literal(), result)]),
        Predicate::Set(e) => (e.op(), e.term(), e.literals().iter().map(|d| read_datum(d, result)).collect()),
        other => panic!("a projection gave no leaf: {other:?}"),
    };
    assert_eq!(term.name(), PARTITION_NAME, "a projection speaks of the partition field");
    literals.sort_by(|a, b| leaf::compare(result, a, b));
    (operator as u16, literals)
}

/// A datum's content. It must be of the result type, which the answer sheet names once for all literals.
pub fn read_datum(datum: &Datum, result: u8) -> Vec<u8> {
    assert_eq!(Some(datum.data_type()), primitive_type(result).as_ref(), "a literal has the result type");
    match datum.literal() {
        PrimitiveLiteral::Int(v) => v.to_le_bytes().to_vec(),
        PrimitiveLiteral::Long(v) => v.to_le_bytes().to_vec(),
        PrimitiveLiteral::String(s) => s.as_bytes().to_vec(),
        PrimitiveLiteral::Binary(b) => b.clone(),
        other => panic!("a literal of none of document 01's types: {other:?}"),
    }
}

/// A content as the crate's own constructor from bytes builds it; it refuses only a string that is not UTF-8.
pub fn datum_of(column: u8, content: &[u8]) -> Result<Datum, u32> {
    let primitive = primitive_type(column).ok_or(number::MALFORMED)?;
    Datum::try_from_bytes(content, primitive).map_err(|_| number::NOT_UTF8)
}

/// The answer number of the crate's error: 6 or 7.
pub fn error_number(error: &Error) -> u32 {
    match error.kind() {
        ErrorKind::DataInvalid => number::DATA_INVALID,
        ErrorKind::FeatureUnsupported => number::FEATURE_UNSUPPORTED,
        other => panic!("an error kind that document 01 does not know: {other}"),
    }
}

pub fn primitive_type(column: u8) -> Option<PrimitiveType> {
    Some(match column {
        column::INT => PrimitiveType::Int,
        column::LONG => PrimitiveType::Long,
        column::DATE => PrimitiveType::Date,
        column::TIME => PrimitiveType::Time,
        column::TIMESTAMP => PrimitiveType::Timestamp,
        column::TIMESTAMPTZ => PrimitiveType::Timestamptz,
        column::TIMESTAMP_NS => PrimitiveType::TimestampNs,
        column::TIMESTAMPTZ_NS => PrimitiveType::TimestamptzNs,
        column::STRING => PrimitiveType::String,
        column::BINARY => PrimitiveType::Binary,
        _ => return None,
    })
}

pub fn transform_of(transform: u8, width: u32) -> Option<Transform> {
    Some(match transform {
        leaf::transform::IDENTITY => Transform::Identity,
        leaf::transform::TRUNCATE => Transform::Truncate(width),
        leaf::transform::YEAR => Transform::Year,
        leaf::transform::MONTH => Transform::Month,
        leaf::transform::DAY => Transform::Day,
        leaf::transform::HOUR => Transform::Hour,
        leaf::transform::VOID => Transform::Void,
        leaf::transform::UNKNOWN => Transform::Unknown,
        _ => return None,
    })
}

pub fn operator_of(code: u16) -> Option<PredicateOperator> {
    use PredicateOperator::*;
    let all = [
        IsNull,
        NotNull,
        IsNan,
        NotNan,
        LessThan,
        LessThanOrEq,
        GreaterThan,
        GreaterThanOrEq,
        Eq,
        NotEq,
        StartsWith,
        NotStartsWith,
        In,
        NotIn,
    ];
    all.into_iter().find(|operator| *operator as u16 == code)
}

/// One column of each type, bound by the crate; type number 1 comes first.
static COLUMNS: LazyLock<Vec<BoundReference>> = LazyLock::new(|| column::ALL.into_iter().map(bound_column).collect());

fn bound_column(column: u8) -> BoundReference {
    let primitive = primitive_type(column).expect("a listed type");
    let field = NestedField::optional(1, COLUMN_NAME, Type::Primitive(primitive));
    let schema = Schema::builder().with_fields([Arc::new(field)]).build().expect("a schema of one column");
    Reference::new(COLUMN_NAME).bind(Arc::new(schema), true).expect("the column is in the schema")
}
