//! Files of older writers over small worlds, each with the rows that may be filed there: no row is lost, and a file that is taken whole
//! has no other rows. By the ordinary picker some would have.

mod support;

use std::collections::BTreeMap;
use std::ops::RangeInclusive;

use support::files::file;
use support::meets::meets;
use support::older::filings;
use support::{leaves_of, number, number_of};
use weighpick::{Leaf, Literal, Pick, Transform, Type, Value};

const MICROS_PER_DAY: i64 = 86_400_000_000;

/// A table of one column, with the rows at the ends of partition values.
struct World {
    column_type: Type,
    transform: Transform,
    literals: Vec<Literal>,
    /// Rows by what they may be filed under, ascending.
    files: Vec<(Literal, Vec<Value>)>,
}

/// The first two and the last two moments of a day; of a Date the day itself.
fn moments(column_type: Type, day: i64) -> Vec<Literal> {
    let unit = match column_type {
        Type::Date => 1,
        Type::Timestamp | Type::Timestamptz => MICROS_PER_DAY,
        _ => 1000 * MICROS_PER_DAY,
    };
    let (first, end) = (day * unit, (day + 1) * unit);
    let mut moments = vec![first, first + 1, end - 2, end - 1];
    moments.retain(|moment| (first..end).contains(moment));
    moments.dedup();
    let moments = moments.into_iter();
    moments.filter_map(|v| number(column_type, v)).collect()
}

/// The first two and the last two of some rows.
fn ends(rows: &[Literal]) -> impl Iterator<Item = Literal> + '_ {
    let (first, rest) = rows.split_at(rows.len().min(2));
    let last = &rest[rest.len().saturating_sub(2)..];
    first.iter().chain(last).cloned()
}

/// The literal of a present value, after its number, by which it is sorted.
fn numbered(value: Value) -> (i64, Literal) {
    match value {
        Value::Present(literal) => (number_of(&literal).expect("a number"), literal),
        Value::Missing => panic!("a missing value"),
    }
}

impl World {
    /// The rows of some days.
    fn new(column_type: Type, transform: Transform, days: RangeInclusive<i64>) -> World {
        let mut partitions = BTreeMap::new();
        for row in days.flat_map(|day| moments(column_type, day)) {
            let value = transform.transform_literal(column_type, &row.clone().into());
            let (place, value) = numbered(value.expect("a day of the calendar"));
            let entry = partitions.entry(place).or_insert((value, Vec::new()));
            entry.1.push(row);
        }
        let (mut literals, mut files) = (Vec::new(), BTreeMap::new());
        for (value, rows) in partitions.into_values() {
            literals.extend(ends(&rows));
            for under in filings(column_type, transform, value.into()) {
                let (place, under) = numbered(under);
                let entry = files.entry(place).or_insert((under, Vec::new()));
                entry.1.extend(ends(&rows).map(Value::from));
            }
        }
        World {
            column_type,
            transform,
            literals,
            files: files.into_values().collect(),
        }
    }

    /// Every leaf with one of the literals, with two neighbours, and with two that have another between them.
    fn leaves(&self) -> Vec<Leaf> {
        let neighbours = self.literals.windows(2).map(<[Literal]>::to_vec);
        let apart = self.literals.windows(3);
        let apart = apart.map(|three| vec![three[0].clone(), three[2].clone()]);
        let sets: Vec<_> = [Vec::new()]
            .into_iter()
            .chain(neighbours)
            .chain(apart)
            .collect();
        leaves_of(self.column_type, self.transform, &self.literals, &sets)
    }
}

/// How often each pick was made by the picker for older writers, and how often the ordinary one took a file whole that may have other
/// rows.
#[derive(Debug, Default)]
struct Picked {
    picks: [usize; 3],
    wrongly_whole: usize,
}

impl Picked {
    /// Holds what both pickers of a leaf, the ordinary one first, say of a file against the rows that may be filed there.
    fn add(&mut self, leaf: &Leaf, [ordinary, older]: [Pick; 2], rows: &[&Value]) {
        let met = rows.iter().filter(|row| meets(leaf, row)).count();
        match older {
            Pick::Skip => assert_eq!(met, 0, "{leaf} loses one of {rows:?}"),
            Pick::Whole => assert_eq!(met, rows.len(), "{leaf} takes {rows:?} whole"),
            Pick::Read => {}
        }
        // What is skipped is the same, and nothing more is taken whole.
        assert_eq!(older == Pick::Skip, ordinary == Pick::Skip, "{leaf}");
        assert!(older != Pick::Whole || ordinary == Pick::Whole, "{leaf}");
        self.picks[older as usize] += 1;
        self.wrongly_whole += usize::from(ordinary == Pick::Whole && met < rows.len());
    }

    /// Every pick was made, and the ordinary picker was wrong or, where nothing is lifted, right.
    fn put_to_the_test(&self, lifted: bool) -> bool {
        self.picks.iter().all(|&picks| picks > 20) && lifted == (self.wrongly_whole > 0)
    }
}

/// Every file of a world, by its partition value.
fn by_value(world: &World) -> Picked {
    let mut picked = Picked::default();
    for leaf in world.leaves() {
        let pickers = [leaf.picker(), leaf.older_picker()];
        let mut add = |value: Value, rows: &[&Value]| {
            let picks = pickers.each_ref().map(|picker| picker.pick(&value));
            let picks = picks.map(|pick| pick.expect("a value of the partition's type"));
            picked.add(&leaf, picks, rows);
        };
        for (under, rows) in &world.files {
            add(under.clone().into(), &rows.iter().collect::<Vec<_>>());
        }
        add(Value::Missing, &[&Value::Missing]);
    }
    picked
}

/// Every file of up to three neighbouring partition values, with missing ones or without, by its summary.
fn by_summary(world: &World) -> Picked {
    let mut picked = Picked::default();
    let windows = [1, 2, 3].into_iter().flat_map(|n| world.files.windows(n));
    let files = windows.flat_map(|window| [(window, false), (window, true)]);
    let files: Vec<_> = files.collect();
    for leaf in world.leaves() {
        let pickers = [leaf.picker(), leaf.older_picker()];
        for (window, missing) in &files {
            let ends = (&window[0].0, &window[window.len() - 1].0);
            let summary = file(ends.0.column_type(), Some(ends), *missing);
            let picks = pickers
                .each_ref()
                .map(|picker| picker.pick_summary(&summary));
            let picks = picks.map(|pick| pick.expect("a summary of the partition's type"));
            let mut rows: Vec<&Value> = window.iter().flat_map(|(_, rows)| rows).collect();
            rows.extend(missing.then_some(&Value::Missing));
            picked.add(&leaf, picks, &rows);
        }
    }
    picked
}

/// Three years before 1970 and two after it, four months and three, four days and three.
const YEARS: RangeInclusive<i64> = -1096..=729;
const MONTHS: RangeInclusive<i64> = -122..=89;
const DAYS: RangeInclusive<i64> = -4..=2;

#[test]
fn where_older_writers_rounded() {
    for (column_type, transform, days) in [
        (Type::Date, Transform::Year, YEARS),
        (Type::Date, Transform::Month, MONTHS),
        (Type::Timestamp, Transform::Year, YEARS),
        (Type::Timestamp, Transform::Month, MONTHS),
        (Type::Timestamp, Transform::Day, DAYS),
        (Type::Timestamptz, Transform::Year, YEARS),
        (Type::TimestampNs, Transform::Month, MONTHS),
        (Type::TimestamptzNs, Transform::Year, YEARS),
    ] {
        let world = World::new(column_type, transform, days);
        for picked in [by_value(&world), by_summary(&world)] {
            assert!(
                picked.put_to_the_test(true),
                "{column_type} {transform}: {picked:?}"
            );
        }
    }
}

#[test]
fn where_they_did_not() {
    for (column_type, transform) in [
        (Type::Date, Transform::Day),
        (Type::Timestamptz, Transform::Day),
        (Type::TimestampNs, Transform::Day),
        (Type::Timestamp, Transform::Hour),
    ] {
        let world = World::new(column_type, transform, DAYS);
        for picked in [by_value(&world), by_summary(&world)] {
            assert!(
                picked.put_to_the_test(false),
                "{column_type} {transform}: {picked:?}"
            );
        }
    }
}
