//! The verdict on files of numbers, by document 02's sentence over the values that a file may hold.

mod support;

use support::files::{all_ends, file, subsets};
use support::meets::{compare, meets};
use support::sample::Random;
use support::{leaves_of, number, number_of, windows};
use weighpick::sheet::{Sheet, ANSWER_LITERALS_MAX};
use weighpick::summary::test_summary;
use weighpick::{Leaf, Literal, PredicateOperator, Summary, Transform, Type, Value, Verdict};

/// The types of numbers.
const NUMBERS: [Type; 8] = [
    Type::Int,
    Type::Long,
    Type::Date,
    Type::Time,
    Type::Timestamp,
    Type::Timestamptz,
    Type::TimestampNs,
    Type::TimestamptzNs,
];

/// How many values a small window has.
const WINDOW: i64 = 6;

/// How many leaves are tried with ends that are far apart.
const LEAVES: usize = 20_000;

/// 02: "skip exactly if no value between the ends, or missing where flagged, meets the predicate; whole exactly if all of them do;
/// read otherwise. A summary with no present value and no missing one is an empty file: skip."
fn verdict(leaf: &Leaf, values: &[Value]) -> Verdict {
    let met = values.iter().filter(|value| meets(leaf, value)).count();
    match met {
        0 => Verdict::Skip,
        all if all == values.len() => Verdict::Whole,
        _ => Verdict::Read,
    }
}

#[test]
fn every_operator_in_small_windows() {
    let mut verdicts = [0; 3];
    for window in NUMBERS.into_iter().flat_map(|t| windows(t, WINDOW)) {
        let column_type = window[0].column_type();
        let leaves = leaves_of(column_type, Transform::Identity, &window, &subsets(&window));
        for (ends, missing) in all_ends(&window) {
            let present = window.iter().filter(|v| {
                ends.is_some_and(|(low, high)| compare(v, low).is_ge() && compare(v, high).is_le())
            });
            let mut values: Vec<Value> = present.cloned().map(Value::from).collect();
            values.extend(missing.then_some(Value::Missing));
            let summary = file(column_type, ends, missing);
            for leaf in &leaves {
                let expected = verdict(leaf, &values);
                assert_eq!(
                    leaf.test_summary(&summary),
                    Ok(expected),
                    "{leaf} of {summary}"
                );
                verdicts[usize::from(expected.number())] += 1;
            }
        }
    }
    assert!(verdicts.iter().all(|&count| count > 10_000), "{verdicts:?}");
}

/// Which values meet a leaf changes only at its literals, so that the ends, the literals and their neighbours stand for all.
fn standing_for_all(leaf: &Leaf, low: &Literal, high: &Literal) -> Vec<Value> {
    let column_type = leaf.column_type();
    let near = |literal: Literal| {
        let v = number_of(&literal).expect("a number");
        [-1, 0, 1].map(|off| v.checked_add(off).and_then(|v| number(column_type, v)))
    };
    let values = leaf.literals().flat_map(near).flatten();
    let values = values.chain([low.clone(), high.clone()]);
    let inside = values.filter(|v| compare(v, low).is_ge() && compare(v, high).is_le());
    inside.map(Value::from).collect()
}

#[test]
fn ends_that_are_far_apart() {
    let mut random = Random::new(14);
    let mut verdicts = [0; 3];
    for _ in 0..LEAVES {
        let operator = random.pick(&PredicateOperator::ALL);
        let column_type = random.pick(&NUMBERS);
        let leaf = random.leaf_of(operator, column_type, Transform::Identity);
        let mut ends = [random.literal(column_type), random.literal(column_type)];
        ends.sort_by(compare);
        let [low, high] = &ends;
        let mut values = standing_for_all(&leaf, low, high);
        let missing = random.below(2) == 1;
        values.extend(missing.then_some(Value::Missing));
        let summary = file(column_type, Some((low, high)), missing);
        let expected = verdict(&leaf, &values);
        assert_eq!(
            leaf.test_summary(&summary),
            Ok(expected),
            "{leaf} of {summary}"
        );
        verdicts[usize::from(expected.number())] += 1;
    }
    assert!(
        verdicts.iter().all(|&count| count > LEAVES / 20),
        "{verdicts:?}"
    );
}

/// The verdicts of In and of NotIn of some Longs, as many as a predicate may have, on a file from one number to another.
fn of_sets(numbers: &[i64], low: i64, high: i64) -> [Verdict; 2] {
    let file = Summary::between(&Literal::Long(low), &Literal::Long(high)).expect("two Longs");
    [PredicateOperator::In, PredicateOperator::NotIn].map(|operator| {
        let mut sheet = Sheet::new(operator, Type::Long, Transform::Identity);
        for &number in numbers {
            sheet.push(&Literal::Long(number)).expect("a Long");
        }
        test_summary(sheet.as_bytes(), file.as_bytes()).expect("no refusal")
    })
}

#[test]
fn sets_that_fill_the_ends() {
    use Verdict::{Read, Skip, Whole};
    let most = ANSWER_LITERALS_MAX as i64;
    for start in [i64::MIN, -most / 2, i64::MAX - (most - 1)] {
        let end = start + (most - 1);
        // Not ascending: the odd ones downwards, then the even ones.
        let odd = (0..most).rev().filter(|n| n % 2 == 1);
        let order: Vec<i64> = odd.chain((0..most).step_by(2)).map(|n| start + n).collect();
        assert_eq!(of_sets(&order, start, end), [Whole, Skip]);
        // With the first of them twice, in place of the tenth, there is a gap.
        let gap: Vec<i64> = order
            .iter()
            .map(|&n| if n == start + 9 { start } else { n })
            .collect();
        assert_eq!(of_sets(&gap, start, end), [Read, Read]);
        assert_eq!(of_sets(&gap, start, start + 8), [Whole, Skip]);
        assert_eq!(of_sets(&gap, start + 9, start + 9), [Skip, Whole]);
        if let Some(beyond) = end.checked_add(1) {
            assert_eq!(of_sets(&order, start, beyond), [Read, Read]);
            assert_eq!(of_sets(&order, beyond, beyond), [Skip, Whole]);
        }
    }
    // The distance of these ends is above every i64.
    for set in [&[i64::MIN, i64::MAX][..], &[-1, 0, 1], &[i64::MAX; 3]] {
        assert_eq!(of_sets(set, i64::MIN, i64::MAX), [Read, Read]);
    }
    assert_eq!(of_sets(&[], i64::MIN, i64::MAX), [Skip, Whole]);
}

/// 02's table is of strings and binaries alone: of numbers 207 holds of nothing, and 208 of every present value.
#[test]
fn no_number_starts_with_another() {
    let file: Summary = "int 7 to 77".parse().expect("a summary");
    for (text, expected) in [
        ("int identity STARTS WITH 7", Verdict::Skip),
        ("int identity NOT STARTS WITH 7", Verdict::Whole),
    ] {
        let leaf: Leaf = text.parse().expect("a leaf");
        assert_eq!(leaf.test_summary(&file), Ok(expected));
    }
}
