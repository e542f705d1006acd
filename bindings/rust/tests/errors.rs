//! What is wrong before the library is asked, one error for all, conversions, and negation.

mod support;

use support::meets::meets_missing;
use support::sample::Random;
use weighpick::sheet::{CONTENT_MAX, LITERALS_MAX};
use weighpick::{
    ColumnError, Columns, Error, Leaf, LeafError, Literal, ParseError, Predicate,
    PredicateOperator, Refusal, Row, RowError, Summary, Transform, Type, Value, ValueError,
};

/// How many leaves are tried.
const LEAVES: usize = 10_000;

/// The inclusive predicate of the leaf `< 300` of an Int in steps of 10.
fn below_300() -> Result<(Leaf, Predicate), Error> {
    let leaf = "int truncate[10] < 300".parse::<Leaf>()?;
    let predicate = leaf.project()?.expect("< has an inclusive projection");
    Ok((leaf, predicate))
}

#[test]
fn a_value_of_another_type_is_an_error_of_its_own() -> Result<(), Error> {
    let (leaf, predicate) = below_300()?;
    for other in Type::ALL {
        let value = Value::from(Random::new(7).literal(other));
        let expected = match other {
            Type::Int => None,
            other => Some(ValueError::WrongType(Type::Int, other)),
        };
        assert_eq!(leaf.holds(&value).err(), expected);
        assert_eq!(predicate.holds(&value).err(), expected);
        assert_eq!(leaf.picker().pick(&value).err(), expected);
        assert_eq!(value.to_record(Type::Int).err(), expected);
        let transformed = Transform::Identity.transform_literal(Type::Int, &value);
        assert_eq!(transformed.err(), expected.map(Error::Value));
    }
    Ok(())
}

#[test]
fn a_long_value_is_an_error_of_its_own() {
    for (fits, literal) in [
        (true, Literal::binary([0; CONTENT_MAX])),
        (false, Literal::binary([0; CONTENT_MAX + 1])),
        (true, Literal::from("é".repeat(CONTENT_MAX / 2).as_str())),
        (false, Literal::from("a".repeat(CONTENT_MAX + 1).as_str())),
        (false, Literal::binary(vec![0; 1 << 16])),
    ] {
        let column_type = literal.column_type();
        let record = Value::from(literal).to_record(column_type);
        assert_eq!(record.is_ok(), fits, "{record:?}");
        assert!(fits || matches!(record, Err(ValueError::TooLong(_))));
    }
}

#[test]
fn a_missing_value_is_of_every_type() -> Result<(), Error> {
    let (leaf, predicate) = below_300()?;
    assert_eq!(leaf.holds(&Value::Missing), Ok(false));
    assert_eq!(predicate.holds(&Value::Missing), Ok(false));
    Ok(())
}

#[test]
fn one_error_takes_them_all() {
    let leaf = || -> Result<Leaf, Error> {
        let operator = PredicateOperator::IsNull;
        Ok(Leaf::binary(operator, Transform::Identity, &"a".into())?)
    };
    let wrong = LeafError::WrongOperator(PredicateOperator::IsNull);
    assert_eq!(leaf(), Err(Error::Leaf(wrong)));
    let refused = || -> Result<Option<Predicate>, Error> {
        let operator = PredicateOperator::IsNull;
        Ok(Leaf::unary(operator, Type::Time, Transform::Year)?.project()?)
    };
    assert_eq!(refused(), Err(Error::Refused(Refusal::NoResultType)));
    let pooled = || -> Result<Summary, Error> {
        let file = Summary::between(&Literal::Int(1), &Literal::Int(2))?;
        Ok(file.pool(&Summary::empty(Type::Date))?)
    };
    assert_eq!(pooled(), Err(Error::Refused(Refusal::DifferentTypes)));
    let value = || -> Result<bool, Error> { Ok(below_300()?.1.holds(&"a".into())?) };
    let wrong = ValueError::WrongType(Type::Int, Type::String);
    assert_eq!(value(), Err(Error::Value(wrong)));
    let text = || -> Result<Type, Error> { Ok("float".parse::<Type>()?) };
    assert!(matches!(text(), Err(Error::Text(_))));
    let row = |name, values: &[Value]| -> Result<Row, Error> {
        let columns = Columns::new([(name, Type::Int, Transform::Identity)])?;
        Ok(columns.row(values)?)
    };
    assert_eq!(row("", &[]), Err(Error::Column(ColumnError::NoName)));
    let wrong = RowError::WrongCount {
        expected: 1,
        found: 0,
    };
    assert_eq!(row("grams", &[]), Err(Error::Row(wrong)));
}

#[test]
fn the_words_are_those_of_the_error_inside() {
    let parse: Result<Type, ParseError> = "float".parse();
    let (long, expected, found) = (CONTENT_MAX + 1, 2, 1);
    let errors: [(Error, String); 6] = [
        (
            LeafError::TooMany(LITERALS_MAX).into(),
            LeafError::TooMany(LITERALS_MAX).to_string(),
        ),
        (
            ValueError::TooLong(long).into(),
            format!("a value has {long} bytes, at most {CONTENT_MAX} fit"),
        ),
        (
            ColumnError::Twice("lot".to_string()).into(),
            "two columns have the name `lot`".to_string(),
        ),
        (
            RowError::WrongCount { expected, found }.into(),
            "2 values are asked for, one a column, and not 1".to_string(),
        ),
        (Refusal::Overflow.into(), Refusal::Overflow.to_string()),
        (
            parse.expect_err("no type").into(),
            "`float` is no type".to_string(),
        ),
    ];
    for (error, words) in errors {
        assert_eq!(error.to_string(), words);
    }
    assert_eq!(
        Refusal::DifferentTypes.to_string(),
        "the two summaries have different types"
    );
    let mistyped = ValueError::WrongType(Type::Int, Type::Date);
    assert_eq!(
        mistyped.to_string(),
        "a value of type date for a column of type int"
    );
}

#[test]
fn conversions() {
    assert_eq!(Value::from(None), Value::Missing);
    let grams = Literal::Int(287);
    assert_eq!(Value::from(Some(grams.clone())), Value::Present(grams));
    assert_eq!(Literal::from("ab"), Literal::string("ab"));
    assert_eq!(Value::from("ab"), Value::Present(Literal::string("ab")));
    assert_eq!(Literal::from("ab".to_string()), Literal::string("ab"));
    assert_eq!(Value::from("ab".to_string()), Value::from("ab"));
    assert_eq!(Literal::from(-1_i32), Literal::Int(-1));
    assert_eq!(Value::from(-1_i32), Value::Present(Literal::Int(-1)));
    assert_eq!(Literal::from(-1_i64), Literal::Long(-1));
    assert_eq!(Value::from(-1_i64), Value::Present(Literal::Long(-1)));
}

/// Of an operator and its negation a missing value meets one, but of these neither.
fn meets_neither(operator: PredicateOperator) -> bool {
    use PredicateOperator::{GreaterThan, GreaterThanOrEq, LessThan, LessThanOrEq};
    use PredicateOperator::{IsNan, NotNan};
    let ordered = [LessThan, LessThanOrEq, GreaterThan, GreaterThanOrEq];
    ordered.contains(&operator) || [IsNan, NotNan].contains(&operator)
}

#[test]
fn a_negation_is_met_by_the_other_present_values() {
    let mut random = Random::new(8);
    for _ in 0..LEAVES {
        let leaf = random.leaf();
        let negated = leaf.negate();
        assert_eq!(negated.negate(), leaf);
        assert_eq!(negated.operator(), leaf.operator().negate());
        assert!(negated.literals().eq(leaf.literals()));
        for row in random.rows(&leaf) {
            let (met, other) = (leaf.holds(&row), negated.holds(&row));
            match row {
                Value::Present(_) => assert_eq!(met.map(|met| !met), other, "{leaf} of {row}"),
                Value::Missing => {
                    assert_eq!(met, Ok(meets_missing(leaf.operator())), "{leaf}");
                    assert_eq!(other, Ok(meets_missing(negated.operator())), "{negated}");
                    assert_eq!(met == other, meets_neither(leaf.operator()), "{leaf}");
                }
            }
        }
    }
}

#[test]
fn an_operator_and_its_negation_take_as_many_literals() {
    for operator in PredicateOperator::ALL {
        let other = operator.negate();
        assert_ne!(operator, other);
        assert_eq!(operator, other.negate());
        assert_eq!(operator.number() / 100, other.number() / 100);
    }
}
