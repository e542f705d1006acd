//! What a server does with a file, by the answers of both projections.

mod support;

use support::sample::Random;
use weighpick::{
    Columns, Error, Filter, Leaf, Literal, Pick, Predicate, Refusal, Transform, Type, Value,
};

/// What a leaf in text does with the file of a partition value in text.
fn pick(leaf: &str, partition_value: &str) -> Result<Pick, Error> {
    let picker = leaf.parse::<Leaf>()?.picker();
    Ok(picker.pick(&partition_value.parse()?)?)
}

#[test]
fn skip_read_and_whole() {
    assert_eq!(pick("int truncate[10] < 295", "int 280"), Ok(Pick::Whole));
    assert_eq!(pick("int truncate[10] < 295", "int 290"), Ok(Pick::Read));
    assert_eq!(pick("int truncate[10] < 295", "int 300"), Ok(Pick::Skip));
    assert_eq!(pick("int truncate[10] < 295", "missing"), Ok(Pick::Skip));
    assert_eq!(pick("date month IS NULL", "missing"), Ok(Pick::Whole));
    assert_eq!(pick("date month IS NULL", "int 0"), Ok(Pick::Skip));
    // No value is a NaN.
    assert_eq!(pick("long identity IS NAN", "long 0"), Ok(Pick::Skip));
    assert_eq!(pick("string identity IN ()", "string \"\""), Ok(Pick::Skip));
}

#[test]
fn lots_left_blank() {
    let blank = |leaf| pick(leaf, "missing");
    // No inclusive predicate, and a strict one that accepts them.
    assert_eq!(blank("string truncate[4] != \"ab12\""), Ok(Pick::Whole));
    assert_eq!(blank("int truncate[10] != 5"), Ok(Pick::Whole));
    assert_eq!(blank("date month NOT IN (0, 31)"), Ok(Pick::Whole));
    assert_eq!(
        blank("string truncate[4] NOT STARTS WITH \"ab\""),
        Ok(Pick::Whole)
    );
    // An inclusive predicate that accepts them, and no strict one.
    assert_eq!(blank("int truncate[10] NOT STARTS WITH 5"), Ok(Pick::Read));
    assert_eq!(blank("string truncate[4] = \"ab12\""), Ok(Pick::Skip));
    assert_eq!(blank("string truncate[4] IS NOT NULL"), Ok(Pick::Skip));
}

#[test]
fn lots_kept_as_binary() {
    let after = |lot| pick("binary truncate[2] > 0x00ff01", lot);
    assert_eq!(after("binary 0x0100"), Ok(Pick::Whole));
    assert_eq!(after("binary 0x00ff"), Ok(Pick::Read));
    assert_eq!(after("binary 0x00"), Ok(Pick::Skip));
    assert_eq!(after("missing"), Ok(Pick::Skip));
}

#[test]
fn without_a_predicate() {
    // Neither has one.
    assert_eq!(pick("int void = 1", "int 1"), Ok(Pick::Read));
    // No inclusive one, so that nothing is skipped; the strict one accepts only other steps.
    assert_eq!(pick("int truncate[10] != 5", "int 0"), Ok(Pick::Read));
    assert_eq!(pick("int truncate[10] != 5", "int 10"), Ok(Pick::Whole));
    // No strict one, so that nothing is taken whole, not even where it could be.
    assert_eq!(pick("int truncate[1] = 5", "int 5"), Ok(Pick::Read));
    assert_eq!(pick("int truncate[1] = 5", "int 6"), Ok(Pick::Skip));
}

#[test]
fn after_a_refusal() -> Result<(), Error> {
    // Of the inclusive projection alone: the strict one still says what is whole.
    let lowest = "int truncate[10] < -2147483640".parse::<Leaf>()?.picker();
    assert_eq!(lowest.inclusive(), Err(Refusal::Overflow));
    assert!(matches!(lowest.strict(), Ok(Some(_))));
    for (step, expected) in [(i32::MIN, Pick::Whole), (-10, Pick::Read), (0, Pick::Read)] {
        assert_eq!(lowest.pick(&Literal::Int(step).into()), Ok(expected));
    }
    // Of the strict one alone: the inclusive one still says what is skipped.
    let highest = "int truncate[10] <= 2147483647".parse::<Leaf>()?.picker();
    assert!(matches!(highest.inclusive(), Ok(Some(_))));
    assert_eq!(highest.strict(), Err(Refusal::Overflow));
    assert_eq!(highest.pick(&Literal::Int(0).into()), Ok(Pick::Read));
    assert_eq!(highest.pick(&Value::Missing), Ok(Pick::Skip));
    // Of both.
    let wide = format!("int truncate[{}] < 0", 1_u32 << 31);
    assert_eq!(pick(&wide, "int 0"), Ok(Pick::Read));
    Ok(())
}

#[test]
fn where_partition_values_have_no_type() {
    for leaf in ["time year = 0", "int unknown = 0"] {
        for value in ["missing", "int 0", "string \"a\""] {
            assert_eq!(pick(leaf, value), Ok(Pick::Read), "{leaf} at {value}");
        }
    }
}

#[test]
fn a_picker_has_both_answers() {
    fn by_reference(
        answer: &Result<Option<Predicate>, Refusal>,
    ) -> Result<Option<&Predicate>, Refusal> {
        answer.as_ref().map(Option::as_ref).map_err(|r| *r)
    }
    let mut random = Random::new(9);
    for _ in 0..1000 {
        let leaf = random.leaf();
        for (picker, strict) in [
            (leaf.picker(), leaf.strict_project()),
            (leaf.older_picker(), leaf.strict_project_older()),
        ] {
            assert_eq!(picker.inclusive(), by_reference(&leaf.project()));
            assert_eq!(picker.strict(), by_reference(&strict));
        }
    }
}

/// What a filter does with a file of a table that is split by the start of the lot and by steps of grams.
fn pick_by_filter(text: &str, lot: &str, grams: i32) -> Result<Pick, Error> {
    let columns = Columns::new([
        ("lot", Type::String, Transform::Truncate(4)),
        ("grams", Type::Int, Transform::Truncate(10)),
    ])?;
    let file = columns.partition(&[lot.into(), Literal::Int(grams).into()])?;
    Ok(Filter::new(&columns, text).pick(&file))
}

#[test]
fn skip_read_and_whole_by_a_filter() {
    let text = "lot startswith 'ab' and not (grams < 295 or grams = 500)";
    for (lot, grams, expected) in [
        ("ab12", 310, Pick::Whole),
        ("ab12", 290, Pick::Read),
        ("ab12", 500, Pick::Read),
        ("ab12", 280, Pick::Skip),
        ("ac12", 310, Pick::Skip),
    ] {
        assert_eq!(
            pick_by_filter(text, lot, grams),
            Ok(expected),
            "{lot} {grams}"
        );
    }
}

#[test]
fn after_a_refusal_of_a_filter() {
    // Of the inclusive question alone: the strict one still says what is whole, and nothing is skipped.
    let lowest = "grams < -2147483640 or lot = 'ab'";
    assert_eq!(
        pick_by_filter(lowest, "ab", -2_147_483_648),
        Ok(Pick::Whole)
    );
    assert_eq!(pick_by_filter(lowest, "cd", 0), Ok(Pick::Read));
    // Of the strict one alone: the inclusive one still says what is skipped, and nothing is taken whole.
    let highest = "grams <= 2147483647 and lot startswith 'ab'";
    assert_eq!(pick_by_filter(highest, "cd", 0), Ok(Pick::Skip));
    assert_eq!(pick_by_filter(highest, "ab", 0), Ok(Pick::Read));
    // Of both, by the leaves or by the text.
    let both = format!("{lowest} or grams <= 2147483647");
    for text in [both.as_str(), "price < 1", "?", &"(".repeat(5000)] {
        assert_eq!(pick_by_filter(text, "cd", 0), Ok(Pick::Read), "{text}");
    }
}
