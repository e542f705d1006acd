//! The verdict on files of strings and binaries, by document 02's table; and that it loses none.

mod support;

use support::files::{all_ends, file};
use support::leaves_of;
use support::meets::{bytes_of, compare, meets};
use support::sample::Random;
use weighpick::{Leaf, Literal, PredicateOperator, Summary, Transform, Type, Value, Verdict};

/// How many leaves are tried with random ends.
const LEAVES: usize = 20_000;

/// 02: "present values rule out a match exactly so".
fn ruled_out(leaf: &Leaf, lowest: &[u8], highest: &[u8]) -> bool {
    let literals: Vec<Literal> = leaf.literals().collect();
    let mut literals = literals.iter().map(bytes_of);
    let outside = |l: &[u8]| l < lowest || l > highest;
    let excluded = |l: &[u8]| l == lowest && l == highest;
    let mut one = || literals.next().expect("a literal");
    match leaf.operator() {
        // "< when the lowest is not below L, ≤ when it is above"
        PredicateOperator::LessThan => lowest >= one(),
        PredicateOperator::LessThanOrEq => lowest > one(),
        // "> when the highest is not above L, ≥ when it is below"
        PredicateOperator::GreaterThan => highest <= one(),
        PredicateOperator::GreaterThanOrEq => highest < one(),
        // "Eq and In when every literal lies outside the ends"
        PredicateOperator::Eq | PredicateOperator::In => literals.all(outside),
        // "NotEq and NotIn when both ends are one excluded literal"
        PredicateOperator::NotEq | PredicateOperator::NotIn => literals.any(excluded),
        // "207 when the highest is below L or the lowest is above L and doesn't start with it"
        PredicateOperator::StartsWith => {
            let l = one();
            highest < l || (lowest > l && !lowest.starts_with(l))
        }
        // "208 when both ends start with L"
        PredicateOperator::NotStartsWith => {
            let l = one();
            lowest.starts_with(l) && highest.starts_with(l)
        }
        // "101 and 103 always, 102 and 104 never"
        PredicateOperator::IsNull | PredicateOperator::IsNan => true,
        PredicateOperator::NotNull | PredicateOperator::NotNan => false,
    }
}

/// 02: "whole isn't given"; "all where none is present"; a missing value is tested as any other.
fn verdict(leaf: &Leaf, ends: Option<(&Literal, &Literal)>, missing: bool) -> Verdict {
    let none = ends.is_none_or(|(low, high)| ruled_out(leaf, bytes_of(low), bytes_of(high)));
    match none && !(missing && meets(leaf, &Value::Missing)) {
        true => Verdict::Skip,
        false => Verdict::Read,
    }
}

/// Every string or binary of up to so many of some parts, ascending.
fn world(parts: &[&[u8]], longest: usize, literal: fn(Vec<u8>) -> Literal) -> Vec<Literal> {
    let mut texts = vec![Vec::new()];
    let mut last = texts.clone();
    for _ in 0..longest {
        let longer = |text: &Vec<u8>| parts.iter().map(|part| [text, *part].concat()).collect();
        last = last.iter().flat_map::<Vec<_>, _>(longer).collect();
        texts.extend_from_slice(&last);
    }
    texts.sort();
    texts.into_iter().map(literal).collect()
}

/// Every verdict on files with ends in a small world, beside the table; what is skipped loses no text of the world.
fn check(world: &[Literal], literals: &[Literal]) {
    let column_type = world[0].column_type();
    let mut sets: Vec<Vec<Literal>> = literals.windows(2).map(<[Literal]>::to_vec).collect();
    sets.extend([vec![], vec![literals[0].clone()], literals.to_vec()]);
    let leaves = leaves_of(column_type, Transform::Identity, literals, &sets);
    let mut verdicts = [0; 2];
    for (ends, missing) in all_ends(literals) {
        let summary = file(column_type, ends, missing);
        let present = world.iter().filter(|v| {
            ends.is_some_and(|(low, high)| compare(v, low).is_ge() && compare(v, high).is_le())
        });
        let mut values: Vec<Value> = present.cloned().map(Value::from).collect();
        values.extend(missing.then_some(Value::Missing));
        for leaf in &leaves {
            let expected = verdict(leaf, ends, missing);
            assert_eq!(
                leaf.test_summary(&summary),
                Ok(expected),
                "{leaf} of {summary}"
            );
            let lost = values.iter().find(|value| meets(leaf, value));
            assert!(
                expected != Verdict::Skip || lost.is_none(),
                "{leaf} of {summary}: {lost:?}"
            );
            verdicts[usize::from(expected.number())] += 1;
        }
    }
    assert!(verdicts.iter().all(|&count| count > 1000), "{verdicts:?}");
}

#[test]
fn strings_by_the_table() {
    let of = |longest| {
        world(&[b"a", b"b", "é".as_bytes()], longest, |bytes| {
            Literal::String(String::from_utf8(bytes).expect("whole letters"))
        })
    };
    check(&of(4), &of(2));
}

#[test]
fn binaries_by_the_table() {
    let of = |longest| world(&[&[0], &[0x61], &[0xff]], longest, Literal::Binary);
    check(&of(4), &of(2));
}

#[test]
fn by_the_table_from_a_seed() {
    let mut random = Random::new(15);
    for _ in 0..LEAVES {
        let operator = random.pick(&PredicateOperator::ALL);
        let column_type = random.pick(&[Type::String, Type::Binary]);
        let leaf = random.leaf_of(operator, column_type, Transform::Identity);
        let rows = random.rows(&leaf).into_iter().filter_map(|row| match row {
            Value::Present(literal) => Some(literal),
            Value::Missing => None,
        });
        let rows: Vec<Literal> = rows.collect();
        let mut ends = [0, 0].map(|_| rows[random.below(rows.len())].clone());
        ends.sort_by(compare);
        let ends = Some((&ends[0], &ends[1]));
        let missing = random.below(2) == 1;
        let summary = file(column_type, ends, missing);
        let expected = verdict(&leaf, ends, missing);
        assert_eq!(
            leaf.test_summary(&summary),
            Ok(expected),
            "{leaf} of {summary}"
        );
    }
}

/// Cases that a sentence of the table turns on, in words.
#[test]
fn in_words() {
    use Verdict::{Read, Skip};
    for (leaf, file, expected) in [
        ("< \"ab\"", "\"ab\" to \"b\"", Skip),
        ("<= \"ab\"", "\"ab\" to \"b\"", Read),
        ("> \"b\"", "\"ab\" to \"b\"", Skip),
        (">= \"b\"", "\"ab\" to \"b\"", Read),
        ("= \"abc\"", "\"ab\" to \"abz\"", Read), // it need not be there
        ("IN (\"a\", \"b\")", "\"ab\" to \"abz\"", Skip), // on either side
        ("!= \"ab\"", "\"ab\" to \"ab\"", Skip),
        ("!= \"ab\"", "\"ab\" to \"ab\\0\"", Read), // though nothing lies between
        ("NOT IN (\"a\", \"ab\")", "\"ab\" to \"ab\"", Skip),
        ("STARTS WITH \"a\"", "\"ab\" to \"b\"", Read), // the lowest is above it, and starts with it
        ("STARTS WITH \"abz\"", "\"ab\" to \"abc\"", Skip),
        ("STARTS WITH \"aa\"", "\"ab\" to \"abc\"", Skip),
        ("NOT STARTS WITH \"ab\"", "\"ab\" to \"abz\"", Skip),
        ("NOT STARTS WITH \"ab\"", "\"ab\" to \"ac\"", Read),
        ("STARTS WITH \"\"", "\"ab\" to \"b\"", Read), // never whole
        ("IS NOT NULL", "\"ab\" to \"ab\"", Read),
        ("IS NULL", "missing", Read),
        ("IS NOT NULL", "missing", Skip), // ruled out, since none is present
        ("!= \"ab\"", "\"ab\" to \"ab\", missing", Read), // the sacks without a lot
        ("NOT IN (\"a\", \"ab\")", "\"ab\" to \"ab\", missing", Read),
        ("NOT STARTS WITH \"ab\"", "\"ab\" to \"abz\", missing", Read),
        ("= \"abc\"", "\"b\" to \"c\", missing", Skip),
        ("!= \"ab\"", "missing", Read),
        ("< \"ab\"", "missing", Skip),
        (">= \"ab\"", "missing", Skip),
        ("IS NULL", "empty", Skip),
        ("IN ()", "\"\" to \"b\"", Skip),
        ("NOT IN ()", "\"\" to \"b\"", Read),
    ] {
        let leaf: Leaf = format!("string identity {leaf}").parse().expect("a leaf");
        let file: Summary = format!("string {file}").parse().expect("a summary");
        assert_eq!(leaf.test_summary(&file), Ok(expected), "{leaf} of {file}");
    }
}
