//! What is said of a pooled file and of the two that it is pooled of: it may hold what either may hold, and where it is skipped
//! each of the two is.

mod support;

use support::files::{files_in, subsets, worlds};
use support::leaves_of;
use weighpick::{Leaf, Literal, PredicateOperator, Summary, Transform, Type, Verdict};

/// Types whose values compare in different ways.
const TYPES: [Type; 4] = [Type::Int, Type::TimestampNs, Type::String, Type::Binary];

/// Whether a leaf skips a file of its type.
fn skips(leaf: &Leaf, file: &Summary) -> bool {
    let verdict = leaf.test_summary(file);
    verdict.expect("a file of the leaf's type") == Verdict::Skip
}

/// Leaves of which each is met by one value alone: by one of a small world, or by a missing one.
fn leaves_of_one(world: &[Literal]) -> Vec<Leaf> {
    let eq = |literal| Leaf::binary(PredicateOperator::Eq, Transform::Identity, literal);
    let column_type = world[0].column_type();
    let null = Leaf::unary(PredicateOperator::IsNull, column_type, Transform::Identity);
    let leaves = world.iter().map(eq).chain([null]);
    leaves.map(|leaf| leaf.expect("a leaf")).collect()
}

/// Holds the verdicts of some leaves on every two files of a small world against those on their pooled summary. Gives how often it
/// was skipped, and how often it was not though both files are.
fn check(world: &[Literal], leaves: &[Leaf]) -> [usize; 2] {
    let files = files_in(world);
    let mut counts = [0; 2];
    for (first, second) in files.iter().flat_map(|f| files.iter().map(move |s| (f, s))) {
        let pooled = first.pool(second).expect("two files of one type");
        for leaf in leaves {
            let skipped = [&pooled, first, second].map(|file| skips(leaf, file));
            match skipped {
                [true, true, true] => counts[0] += 1,
                // A value that meets the leaf may lie between the two files.
                [false, true, true] => counts[1] += 1,
                [false, ..] => {}
                _ => panic!("{leaf} skips {pooled}, and not {first} and {second}"),
            }
        }
    }
    counts
}

/// 02: "A predicate that skips the pooled file skips each of the two."
#[test]
fn every_operator() {
    for world in TYPES.into_iter().flat_map(worlds) {
        let column_type = world[0].column_type();
        let leaves = leaves_of(column_type, Transform::Identity, &world, &subsets(&world));
        let counts = check(&world, &leaves);
        assert!(counts.iter().all(|&count| count > 500), "{counts:?}");
    }
}

/// What a file may hold, one value after the other: the pooled one may hold what either may, and what lies between.
#[test]
fn every_value() {
    for world in TYPES.into_iter().flat_map(worlds) {
        let counts = check(&world, &leaves_of_one(&world));
        assert!(counts.iter().all(|&count| count > 100), "{counts:?}");
    }
}
