//! Document 01, "Moments and lots on either side", and document 02's lots kept as binary, with the typed names.

mod support;

use support::said;
use weighpick::{Error, Leaf, Literal, PredicateOperator, Refusal, Transform, Type, Value};
use Literal::{Date, Int, Timestamp, Timestamptz};

/// The partition value of a present value.
fn partition(transform: Transform, value: Literal) -> Result<Literal, Error> {
    match transform.transform_literal(value.column_type(), &Value::Present(value))? {
        Value::Present(partition) => Ok(partition),
        Value::Missing => panic!("a present value has a present partition value here"),
    }
}

/// A leaf with one literal.
fn leaf(operator: PredicateOperator, transform: Transform, literal: Literal) -> Leaf {
    Leaf::binary(operator, transform, &literal).expect("a short literal")
}

/// What a projection says, as operator and literals.
type Projected = Result<Option<(PredicateOperator, Vec<Literal>)>, Refusal>;

/// A predicate with these literals.
fn predicate(operator: PredicateOperator, literals: &[Literal]) -> Projected {
    Ok(Some((operator, literals.to_vec())))
}

#[test]
fn truncate() {
    assert_eq!(partition(Transform::Truncate(10), Int(-1)), Ok(Int(-10)));
    assert_eq!(partition(Transform::Truncate(10), Int(5)), Ok(Int(0)));
    let widest = Transform::Truncate(2_147_483_647);
    assert_eq!(partition(widest, Int(0)), Ok(Int(0)));
    let wider = Transform::Truncate(2_147_483_648);
    assert_eq!(partition(wider, Int(0)), Err(Refusal::DataInvalid.into()));
}

#[test]
fn days() {
    let day = |micros| partition(Transform::Day, Timestamp(micros));
    assert_eq!(day(-1), Ok(Date(-1)));
    assert_eq!(day(-86_400_000_001), Ok(Date(-2)));
    assert_eq!(day(-86_400_000_002), Ok(Date(-2)));
    assert_eq!(day(-86_401_000_000), Ok(Date(-2)));
}

#[test]
fn hours() {
    let hour = |micros| partition(Transform::Hour, Timestamp(micros));
    assert_eq!(hour(-1), Ok(Int(-1)));
    assert_eq!(hour(7_730_941_132_799_999_999), Ok(Int(2_147_483_647)));
    assert_eq!(
        hour(7_730_941_132_800_000_000),
        Err(Refusal::Overflow.into())
    );
}

#[test]
fn months_and_years() {
    assert_eq!(partition(Transform::Month, Date(31)), Ok(Int(1)));
    assert_eq!(partition(Transform::Month, Date(-1)), Ok(Int(-1)));
    let year = |value| partition(Transform::Year, value);
    assert_eq!(year(Timestamp(8_210_266_876_799_999_999)), Ok(Int(260_172)));
    let past = Timestamp(8_210_266_876_800_000_000);
    assert_eq!(year(past), Err(Refusal::DataInvalid.into()));
    assert_eq!(year(Date(95_026_236)), Ok(Int(260_172)));
    assert_eq!(year(Date(95_026_237)), Err(Refusal::Overflow.into()));
}

#[test]
fn lifted() {
    let year = leaf(PredicateOperator::Eq, Transform::Year, Date(-1));
    let both = predicate(PredicateOperator::In, &[Int(-1), Int(0)]);
    assert_eq!(said(year.project()), both);
    let at_most = PredicateOperator::LessThanOrEq;
    let micros = leaf(at_most, Transform::Day, Timestamp(-1));
    assert_eq!(said(micros.project()), predicate(at_most, &[Date(0)]));
    let zoned = leaf(at_most, Transform::Day, Timestamptz(-1));
    assert_eq!(said(zoned.project()), predicate(at_most, &[Date(-1)]));
}

#[test]
fn starts_with_counts_code_points() {
    let starts = PredicateOperator::StartsWith;
    let lots = leaf(starts, Transform::Truncate(2), Literal::string("é"));
    let expected = predicate(starts, &[Literal::string("é")]);
    assert_eq!(said(lots.project()), expected);
}

#[test]
fn a_binary_is_cut_by_bytes() {
    let lot = || Literal::binary("éa");
    let cut = |width| partition(Transform::Truncate(width), lot());
    assert_eq!(cut(0), Ok(Literal::binary([])));
    assert_eq!(cut(1), Ok(Literal::binary([0xc3])));
    assert_eq!(cut(2), Ok(Literal::binary("é")));
    assert_eq!(cut(3), Ok(lot()));
    assert_eq!(cut(u32::MAX), Ok(lot()));
    let missing = Transform::Truncate(1).transform_literal(Type::Binary, &Value::Missing);
    assert_eq!(missing, Ok(Value::Missing));
}

/// Both answers to a leaf with one Binary, under Truncate 2.
fn both(operator: PredicateOperator, lot: &[u8]) -> [Projected; 2] {
    let leaf = leaf(operator, Transform::Truncate(2), Literal::binary(lot));
    [said(leaf.project()), said(leaf.strict_project())]
}

#[test]
fn starts_of_a_binary() {
    use PredicateOperator::{Eq, NotEq, NotStartsWith, StartsWith};
    let is = |operator, lot: &[u8]| predicate(operator, &[Literal::binary(lot)]);
    for shorter in [&b""[..], b"a", b"\xc3"] {
        for operator in [StartsWith, NotStartsWith] {
            let same = [is(operator, shorter), is(operator, shorter)];
            assert_eq!(both(operator, shorter), same);
        }
    }
    // As long as the width: the inclusive question keeps its operator, where a String has Eq and NotEq.
    let of_width = [is(StartsWith, b"ab"), is(Eq, b"ab")];
    assert_eq!(both(StartsWith, b"ab"), of_width);
    let not_of_width = [is(NotStartsWith, b"ab"), is(NotEq, b"ab")];
    assert_eq!(both(NotStartsWith, b"ab"), not_of_width);
    // Longer: "abx" doesn't start with "abc" yet shares its two-byte part.
    assert_eq!(both(StartsWith, b"abc"), [is(StartsWith, b"ab"), Ok(None)]);
    let longer = [Ok(None), is(NotStartsWith, b"ab")];
    assert_eq!(both(NotStartsWith, b"abc"), longer);
}

#[test]
fn a_binary_is_compared_as_a_string_is() {
    use PredicateOperator::*;
    let cut = |operator| predicate(operator, &[Literal::binary("aé".as_bytes()[..2].to_vec())]);
    for (operator, expected) in [
        (LessThan, [cut(LessThanOrEq), cut(LessThan)]),
        (LessThanOrEq, [cut(LessThanOrEq), cut(LessThan)]),
        (GreaterThan, [cut(GreaterThanOrEq), cut(GreaterThan)]),
        (GreaterThanOrEq, [cut(GreaterThanOrEq), cut(GreaterThan)]),
        (Eq, [cut(Eq), Ok(None)]),
        (NotEq, [Ok(None), cut(NotEq)]),
    ] {
        assert_eq!(both(operator, "aé".as_bytes()), expected, "{operator}");
    }
    let lots = ["b", "abc", "abx"].map(Literal::binary);
    let starts = ["ab", "b"].map(Literal::binary);
    let set = |operator| Leaf::set(operator, Type::Binary, Transform::Truncate(2), &lots);
    let (among, outside) = (set(In).expect("three"), set(NotIn).expect("three"));
    assert_eq!(said(among.project()), predicate(In, &starts));
    assert_eq!(said(among.strict_project()), Ok(None));
    assert_eq!(said(outside.project()), Ok(None));
    assert_eq!(said(outside.strict_project()), predicate(NotIn, &starts));
}

#[test]
fn below_the_lowest_step() {
    let below = PredicateOperator::LessThan;
    let lowest = leaf(below, Transform::Truncate(10), Int(-2_147_483_640));
    assert_eq!(lowest.project(), Err(Refusal::Overflow));
    let strict = predicate(below, &[Int(-2_147_483_640)]);
    assert_eq!(said(lowest.strict_project()), strict);
}

#[test]
fn the_sample_of_the_program() {
    let sample = leaf(
        PredicateOperator::LessThan,
        Transform::Truncate(10),
        Int(300),
    );
    let inclusive = predicate(PredicateOperator::LessThanOrEq, &[Int(290)]);
    assert_eq!(said(sample.project()), inclusive);
    let strict = predicate(PredicateOperator::LessThan, &[Int(300)]);
    assert_eq!(said(sample.strict_project()), strict);
}
