//! Nothing is read in vain: over small worlds, whole partitions of whole numbers and days, both projections are exact.

mod support;

use std::collections::BTreeMap;
use std::ops::RangeInclusive;

use support::{number, number_of};
use weighpick::{Leaf, Literal, PredicateOperator, Transform, Type, Value};

/// The comparisons with one literal: 201 to 206.
const COMPARISONS: RangeInclusive<u16> = 201..=206;

/// Rows by their partition value.
struct World {
    column_type: Type,
    transform: Transform,
    /// Whether document 01 lifts the transform.
    lifted: bool,
    partitions: BTreeMap<i64, Vec<Value>>,
}

impl World {
    /// The rows hold these numbers; they are all rows of their partition values.
    fn new(
        column_type: Type,
        transform: Transform,
        lifted: bool,
        rows: RangeInclusive<i64>,
    ) -> World {
        let mut partitions = BTreeMap::<i64, Vec<Value>>::new();
        for row in rows {
            let row = number(column_type, row).expect("a small number").into();
            match transform.transform_literal(column_type, &row) {
                Ok(Value::Present(p)) => {
                    let p = number_of(&p).expect("a number's partition value");
                    partitions.entry(p).or_default().push(row);
                }
                other => panic!("{row:?} has the partition value {other:?}"),
            }
        }
        World {
            column_type,
            transform,
            lifted,
            partitions,
        }
    }

    /// Whether some row of a partition value meets the leaf.
    fn some(&self, leaf: &Leaf, p: i64) -> bool {
        let mut rows = self.partitions.get(&p).into_iter().flatten();
        rows.any(|row| leaf.holds(row) == Ok(true))
    }

    /// Whether all rows of a partition value meet the leaf.
    fn all(&self, leaf: &Leaf, p: i64) -> bool {
        let mut rows = self.partitions[&p].iter();
        rows.all(|row| leaf.holds(row) == Ok(true))
    }

    /// Both projections accept a partition value exactly when they should. The lowest one has no neighbour below to lift from.
    fn check(&self, leaf: &Leaf) {
        let inclusive = leaf.project().expect("no refusal");
        let strict = leaf.strict_project().expect("no refusal");
        assert!(inclusive.is_some() || strict.is_some());
        for &p in self.partitions.keys().skip(1) {
            let value = number(self.result_type(), p)
                .expect("a small number")
                .into();
            let from_below = self.lifted && p <= 0 && self.some(leaf, p - 1);
            if let Some(inclusive) = &inclusive {
                let expected = self.some(leaf, p) || from_below;
                assert_eq!(inclusive.holds(&value), Ok(expected), "{leaf:?} at {p}");
            }
            if let Some(strict) = &strict {
                assert_eq!(
                    strict.holds(&value),
                    Ok(self.all(leaf, p)),
                    "{leaf:?} at {p}"
                );
            }
        }
    }

    fn result_type(&self) -> Type {
        self.transform
            .result_type(self.column_type)
            .expect("a valid pair")
    }

    /// Every comparison, and In and NotIn of every set of at most two, with these literals; says how many leaves that were.
    fn check_all(&self, literals: &[i64]) -> usize {
        let (column_type, transform) = (self.column_type, self.transform);
        let literals: Vec<Literal> = literals
            .iter()
            .filter_map(|&v| number(column_type, v))
            .collect();
        let mut leaves = Vec::new();
        for operator in COMPARISONS.filter_map(PredicateOperator::from_number) {
            leaves.extend(
                literals
                    .iter()
                    .map(|l| Leaf::binary(operator, transform, l)),
            );
        }
        for operator in [PredicateOperator::In, PredicateOperator::NotIn] {
            let sets = small_sets(&literals).into_iter();
            leaves.extend(sets.map(|set| Leaf::set(operator, column_type, transform, set)));
        }
        for leaf in &leaves {
            self.check(leaf.as_ref().expect("within the limits"));
        }
        leaves.len()
    }
}

/// The sets of at most two of some literals.
fn small_sets(literals: &[Literal]) -> Vec<Vec<&Literal>> {
    let mut sets = vec![Vec::new()];
    for (i, first) in literals.iter().enumerate() {
        sets.push(vec![first]);
        sets.extend(literals[i + 1..].iter().map(|second| vec![first, second]));
    }
    sets
}

#[test]
fn grams_in_small_steps() {
    let literals: Vec<i64> = (-4..=4).collect();
    let mut leaves = 0;
    for width in 1..=3 {
        // Six partition values on each side of 0.
        let rows = -6 * i64::from(width)..=6 * i64::from(width) - 1;
        let world = World::new(Type::Int, Transform::Truncate(width), false, rows);
        leaves += world.check_all(&literals);
    }
    assert_eq!(leaves, 438);
}

#[test]
fn days_by_month() {
    // October 1969 to March 1970.
    let world = World::new(Type::Date, Transform::Month, true, -92..=89);
    assert_eq!(world.partitions.len(), 6);
    world.check_all(&[-62, -61, -32, -31, -2, -1, 0, 1, 30, 31, 58]);
}

#[test]
fn days_by_year() {
    // 1968 to 1971.
    let world = World::new(Type::Date, Transform::Year, true, -731..=729);
    assert_eq!(world.partitions.len(), 4);
    world.check_all(&[-366, -365, -364, -1, 0, 1, 364, 365]);
}
