//! The third question, strict for files of older writers: by hand, and by what it makes of the strict answer.

mod support;

use support::meets::compare;
use support::older::{lifted, next};
use support::sample::Random;
use support::{answers, said};
use weighpick::sheet::{ANSWER_LITERALS_MAX, LITERALS_MAX, SHEET_BUFFER};
use weighpick::{
    Columns, Error, Filter, Leaf, Literal, Pick, PredicateOperator, Refusal, Transform, Type,
};

/// How many leaves are tried.
const LEAVES: usize = 10_000;

/// How many of them must be answered otherwise than by the strict question, so that the sample is not idle.
const PUT_TO_THE_TEST: usize = 500;

const MICROS_PER_DAY: i64 = 86_400_000_000;

/// The strict answer to a leaf in text, and the one for files of older writers, in text too.
fn strict_and_older(leaf: &str) -> Result<[Option<String>; 2], Error> {
    let leaf: Leaf = leaf.parse()?;
    let answers = [leaf.strict_project()?, leaf.strict_project_older()?];
    Ok(answers.map(|answer| answer.map(|predicate| predicate.to_string())))
}

#[test]
fn by_hand() {
    for (leaf, strict, older) in [
        ("date year >= 0", "int > -1", "int > 0"),
        ("date year > -1", "int > -1", "int > 0"),
        ("date year >= 1", "int > 0", "int > 0"),
        ("date year >= -365", "int > -2", "int > -1"),
        ("date year > -96465292", "int > -264113", "int > -264112"),
        ("date year < 0", "int < 0", "int < 0"),
        ("date year <= -1", "int < 0", "int < 0"),
        ("date year < -400", "int < -2", "int < -2"),
        ("date year != -1", "int != -1", "int NOT IN (-1, 0)"),
        ("date year != 0", "int != 0", "int != 0"),
        ("date month != -32", "int != -2", "int NOT IN (-2, -1)"),
        ("timestamp month > -1", "int > -1", "int > 0"),
        ("timestamptz_ns year > -1", "int > -1", "int > 0"),
        ("date year IS NULL", "int IS NULL", "int IS NULL"),
        ("date year IS NOT NAN", "int IS NOT NAN", "int IS NOT NAN"),
    ] {
        let expected = [strict, older].map(|text| Some(text.to_string()));
        assert_eq!(strict_and_older(leaf), Ok(expected), "{leaf}");
    }
}

#[test]
fn sets_by_hand() {
    let both = "int NOT IN (-2, -1, 0)";
    for (leaf, strict, older) in [
        ("date year NOT IN (-1, -400, 5)", both, both),
        (
            "date year NOT IN (-1)",
            "int NOT IN (-1)",
            "int NOT IN (-1, 0)",
        ),
        (
            "date year NOT IN (400, 0)",
            "int NOT IN (0, 1)",
            "int NOT IN (0, 1)",
        ),
        (
            "date month NOT IN (-70, 3)",
            "int NOT IN (-3, 0)",
            "int NOT IN (-3, -2, 0)",
        ),
        ("date year NOT IN ()", "int NOT IN ()", "int NOT IN ()"),
    ] {
        let expected = [strict, older].map(|text| Some(text.to_string()));
        assert_eq!(strict_and_older(leaf), Ok(expected), "{leaf}");
    }
}

/// Day is lifted of Timestamp alone.
#[test]
fn days_by_hand() {
    for (leaf, older) in [
        ("timestamp day >= 0", "date > 0"),
        ("timestamptz day >= 0", "date > -1"),
        ("timestamp_ns day >= 0", "date > -1"),
        ("date day >= 0", "date > -1"),
    ] {
        let expected = ["date > -1", older].map(|text| Some(text.to_string()));
        assert_eq!(strict_and_older(leaf), Ok(expected), "{leaf}");
    }
    let other = strict_and_older("timestamp day != -1");
    let expected = ["date != -1", "date NOT IN (-1, 0)"].map(|text| Some(text.to_string()));
    assert_eq!(other, Ok(expected));
}

#[test]
fn without_a_predicate_and_refused() {
    for leaf in [
        "date year = -1",
        "date year IN (-1)",
        "date year STARTS WITH -1",
        "date year NOT STARTS WITH -1",
    ] {
        assert_eq!(strict_and_older(leaf), Ok([None, None]), "{leaf}");
    }
    // The day before is outside the calendar.
    for (leaf, refusal) in [
        ("date year >= -96465292", Refusal::Overflow),
        (
            "timestamp year > -9223372036854775808",
            Refusal::DataInvalid,
        ),
        ("time year > -1", Refusal::NoResultType),
    ] {
        let leaf: Leaf = leaf.parse().expect("a leaf");
        assert_eq!(leaf.strict_project(), Err(refusal), "{leaf}");
        assert_eq!(leaf.strict_project_older(), Err(refusal), "{leaf}");
    }
}

/// As many literals as an answer sheet holds: each of the days stands alone, and gains the next.
#[test]
fn the_largest_answer() {
    let days = (0..LITERALS_MAX as i64).map(|n| Literal::Timestamp((-1 - 2 * n) * MICROS_PER_DAY));
    let days: Vec<Literal> = days.collect();
    let leaf = Leaf::set(
        PredicateOperator::NotIn,
        Type::Timestamp,
        Transform::Day,
        &days,
    );
    let older = leaf
        .expect("as many as a sheet takes")
        .strict_project_older();
    let older = older.expect("no refusal").expect("NotIn has one");
    assert_eq!(older.literals().len(), ANSWER_LITERALS_MAX);
    assert_eq!(older.as_bytes().len(), SHEET_BUFFER);
    let all = (1 - ANSWER_LITERALS_MAX as i32..=0).map(Literal::Date);
    assert!(older.literals().eq(all.clone()));
    assert!(all
        .map(Into::into)
        .all(|day| older.holds(&day) == Ok(false)));
    for outside in [-(ANSWER_LITERALS_MAX as i32), 1] {
        assert_eq!(older.holds(&Literal::Date(outside).into()), Ok(true));
    }
}

/// A leaf under a transform that older writers rounded, of a type that it takes.
fn lifted_leaf(random: &mut Random) -> Leaf {
    loop {
        let leaf = random.leaf();
        let (column_type, transform) = (leaf.column_type(), leaf.transform());
        if lifted(column_type, transform) && transform.result_type(column_type).is_ok() {
            return leaf;
        }
    }
}

/// An operator with literals.
type Condition = (PredicateOperator, Vec<Literal>);

/// What 02 makes of a strict answer: "a bound after > rises by one where it is negative, NotEq with a negative value becomes NotIn of it
/// and the next, and NotIn gains the next of each negative value".
fn risen((operator, literals): Condition) -> Condition {
    let nexts = literals.iter().filter_map(next);
    match operator {
        PredicateOperator::GreaterThan => {
            let bound = literals.iter().map(|l| next(l).unwrap_or(l.clone()));
            (operator, bound.collect())
        }
        PredicateOperator::NotEq if nexts.clone().count() == 0 => (operator, literals),
        PredicateOperator::NotEq | PredicateOperator::NotIn => {
            let mut all: Vec<Literal> = literals.iter().cloned().chain(nexts).collect();
            all.sort_by(compare);
            all.dedup();
            (PredicateOperator::NotIn, all)
        }
        _ => (operator, literals),
    }
}

#[test]
fn the_strict_answer_but_for_what_02_says() {
    let mut random = Random::new(20);
    let mut moved = 0;
    for _ in 0..LEAVES {
        let leaf = match random.below(2) {
            0 => random.leaf(),
            _ => lifted_leaf(&mut random),
        };
        let strict = said(leaf.strict_project());
        let expected = match lifted(leaf.column_type(), leaf.transform()) {
            true => strict.clone().map(|found| found.map(risen)),
            false => strict.clone(),
        };
        moved += usize::from(expected != strict);
        let older = leaf.strict_project_older();
        let [_, _, over_bytes] = answers(leaf.as_bytes());
        let bytes = older
            .clone()
            .map(|found| found.map(|p| p.as_bytes().to_vec()));
        assert_eq!(over_bytes, bytes, "{leaf}");
        assert_eq!(said(older), expected, "{leaf}");
    }
    assert!(moved > PUT_TO_THE_TEST, "{moved}");
}

/// "For other transforms it equals strict", byte for byte; and under every transform it is refused, or has no predicate, where strict
/// is and has none. Every second sheet is damaged at a byte.
#[test]
fn sheets_of_every_kind() {
    let mut random = Random::new(21);
    let mut refused = 0;
    for n in 0..LEAVES {
        let mut sheet = random.leaf().as_bytes().to_vec();
        if n % 2 == 0 {
            let at = random.below(sheet.len());
            sheet[at] = random.pick(&[0, 1, 2, 3, 4, 5, 0x7f, 0xff]);
        }
        let [_, strict, older] = answers(&sheet);
        let read = Leaf::from_bytes(&sheet);
        if read.is_ok_and(|leaf| lifted(leaf.column_type(), leaf.transform())) {
            let kind = |answer: &Result<Option<Vec<u8>>, Refusal>| {
                answer.as_ref().map(Option::is_some).map_err(|r| *r)
            };
            assert_eq!(kind(&older), kind(&strict), "{sheet:?}");
        } else {
            assert_eq!(older, strict, "{sheet:?}");
        }
        refused += usize::from(older.is_err());
    }
    assert!(refused > PUT_TO_THE_TEST, "{refused}");
}

/// A filter has two questions, so that no file of older writers is taken whole by one.
#[test]
fn a_filter_takes_none_whole() -> Result<(), Error> {
    let columns = Columns::new([("day", Type::Date, Transform::Year)])?;
    let since_1970 = Filter::new(&columns, "day >= 0");
    for (year, pick, pick_older) in [
        (-1, Pick::Skip, Pick::Skip),
        (0, Pick::Whole, Pick::Read),
        (1, Pick::Whole, Pick::Read),
    ] {
        let file = columns.partition(&[Literal::Int(year).into()])?;
        assert_eq!(since_1970.pick(&file), pick, "{year}");
        assert_eq!(since_1970.pick_older(&file), pick_older, "{year}");
    }
    // The last day of 1969 may lie under 0, and fails the filter.
    let row = columns.row(&[Literal::Date(-1).into()])?;
    assert_eq!(since_1970.row(&row), Ok(false));
    // After a refusal nothing is passed over.
    let refused = Filter::new(&columns, "day >= -96465292 and day < -96465292");
    let file = columns.partition(&[Literal::Int(0).into()])?;
    assert_eq!(refused.project(&file), Err(Refusal::Overflow));
    assert_eq!(refused.pick_older(&file), Pick::Read);
    Ok(())
}
