//! No row is lost by picking files, and a file that is taken whole has no other rows.

mod support;

use std::collections::{BTreeMap, BTreeSet};
use std::ops::RangeInclusive;

use support::meets::meets;
use support::sample::Random;
use support::{leaves_of, number};
use weighpick::{Literal, Pick, Transform, Type, Value};

/// The values of a number type in a small range.
fn numbers(column_type: Type, range: RangeInclusive<i64>) -> Vec<Value> {
    let numbers = range.filter_map(|v| number(column_type, v));
    numbers.map(Into::into).collect()
}

/// Every Binary of up to three of some bytes, in order.
fn binaries(bytes: &[u8]) -> Vec<Value> {
    let mut found = BTreeSet::from([Vec::new()]);
    for _ in 0..3 {
        let longer = |lot: &Vec<u8>| {
            bytes
                .iter()
                .map(|byte| [&lot[..], &[*byte]].concat())
                .collect::<Vec<_>>()
        };
        let more: Vec<Vec<u8>> = found.iter().flat_map(longer).collect();
        found.extend(more);
    }
    found
        .into_iter()
        .map(|lot| Literal::binary(lot).into())
        .collect()
}

/// Rows by their partition value, and how often each pick was made of a file that has rows.
fn small_world(
    column_type: Type,
    transform: Transform,
    rows: Vec<Value>,
) -> BTreeMap<String, usize> {
    let mut files = BTreeMap::<String, (Value, Vec<&Value>)>::new();
    for row in rows.iter().chain([&Value::Missing]) {
        let value = transform
            .transform_literal(column_type, row)
            .expect("a partition value");
        files
            .entry(value.to_string())
            .or_insert((value, Vec::new()))
            .1
            .push(row);
    }
    // The literals lie at the ends of files, where answers change.
    let ends = files
        .values()
        .flat_map(|(_, rows)| rows.iter().take(2).chain(rows.iter().rev().take(2)));
    let literals: Vec<Literal> = ends
        .filter_map(|row| match row {
            Value::Present(literal) => Some(literal.clone()),
            Value::Missing => None,
        })
        .collect();
    let sets: Vec<Vec<Literal>> = literals.windows(2).map(<[Literal]>::to_vec).collect();
    let mut picks = BTreeMap::new();
    for leaf in leaves_of(column_type, transform, &literals, &sets) {
        let picker = leaf.picker();
        for (value, rows) in files.values() {
            let picked = picker.pick(value).expect("a value of the partition's type");
            let met = rows.iter().filter(|row| meets(&leaf, row)).count();
            match picked {
                Pick::Skip => assert_eq!(met, 0, "{leaf} loses rows of {value}"),
                Pick::Whole => assert_eq!(met, rows.len(), "{leaf} takes {value} whole"),
                Pick::Read => {}
            }
            *picks.entry(format!("{picked:?}")).or_default() += 1;
        }
    }
    picks
}

#[test]
fn no_row_is_lost_in_small_worlds() {
    let worlds = [
        (Type::Int, Transform::Truncate(1), -6..=6),
        (Type::Int, Transform::Truncate(3), -30..=30),
        (Type::Long, Transform::Truncate(10), -40..=40),
        (Type::Date, Transform::Month, -70..=70),
        (Type::Date, Transform::Year, -400..=400),
        (Type::Date, Transform::Day, -20..=20),
    ];
    let lots = || binaries(&[0, b'a', 0xc3, 0xff]);
    let of_numbers = worlds.map(|(ty, transform, range)| (ty, transform, numbers(ty, range)));
    let of_lots = [1, 2, 3].map(|width| (Type::Binary, Transform::Truncate(width), lots()));
    for (column_type, transform, rows) in of_numbers.into_iter().chain(of_lots) {
        let picks = small_world(column_type, transform, rows);
        assert!(
            ["Skip", "Read", "Whole"]
                .iter()
                .all(|pick| picks.contains_key(*pick)),
            "{picks:?}"
        );
    }
    // Under Identity both projections are the leaf itself.
    let picks = small_world(Type::Int, Transform::Identity, numbers(Type::Int, -6..=6));
    assert!(picks.keys().eq(["Skip", "Whole"]), "{picks:?}");
    // Void has no predicates.
    let picks = small_world(Type::Int, Transform::Void, numbers(Type::Int, -3..=3));
    assert!(picks.keys().eq(["Read"]), "{picks:?}");
}

#[test]
fn no_row_is_lost_at_the_edges() {
    let mut random = Random::new(10);
    let mut picks = [0; 3];
    for _ in 0..10_000 {
        let leaf = random.leaf();
        let picker = leaf.picker();
        for row in random.rows(&leaf) {
            let value = leaf.transform().transform_literal(leaf.column_type(), &row);
            let Ok(value) = value else { continue };
            let picked = picker
                .pick(&value)
                .expect("a value of the partition's type");
            match picked {
                Pick::Skip => assert!(!meets(&leaf, &row), "{leaf} loses {row}"),
                Pick::Whole => assert!(meets(&leaf, &row), "{leaf} lets {row} in"),
                Pick::Read => {}
            }
            picks[picked as usize] += 1;
        }
    }
    assert!(picks.iter().all(|&picks| picks > 1000), "{picks:?}");
}
