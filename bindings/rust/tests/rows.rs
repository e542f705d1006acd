//! No row is lost: over leaves and rows from a seed, what the customer demands of both projections.

mod support;

use support::meets::meets;
use support::sample::Random;
use weighpick::{Leaf, Value};

/// How many leaves are tried.
const LEAVES: usize = 30_000;

/// How often each demand must have been put to the test, so that the sample is not idle.
const PUT_TO_THE_TEST: usize = 10_000;

/// How often a demand was about something.
#[derive(Default)]
struct Tried {
    inclusive: usize,
    strict: usize,
}

/// Both demands, for one row and its partition value.
fn check(leaf: &Leaf, row: &Value, partition: &Value, tried: &mut Tried) {
    let met = meets(leaf, row);
    if let (true, Ok(Some(inclusive))) = (met, leaf.project()) {
        assert_eq!(
            inclusive.holds(partition),
            Ok(true),
            "{leaf:?} loses {row:?}"
        );
        tried.inclusive += 1;
    }
    if let Ok(Some(strict)) = leaf.strict_project() {
        let accepted = strict.holds(partition);
        if accepted.expect("a value of the predicate's type") {
            assert!(met, "{leaf:?} lets {row:?} in");
            tried.strict += 1;
        }
    }
}

#[test]
fn no_row_is_lost() {
    let mut random = Random::new(1);
    let mut tried = Tried::default();
    for _ in 0..LEAVES {
        let leaf = random.leaf();
        for row in random.rows(&leaf) {
            let transform = leaf.transform();
            if let Ok(partition) = transform.transform_literal(leaf.column_type(), &row) {
                check(&leaf, &row, &partition, &mut tried);
            }
        }
    }
    assert!(tried.inclusive > PUT_TO_THE_TEST && tried.strict > PUT_TO_THE_TEST);
}

#[test]
fn a_row_meets_a_leaf_as_document_01_says() {
    let mut random = Random::new(2);
    for _ in 0..LEAVES {
        let leaf = random.leaf();
        for row in random.rows(&leaf) {
            assert_eq!(
                leaf.holds(&row),
                Ok(meets(&leaf, &row)),
                "{leaf:?} of {row:?}"
            );
        }
    }
}
