//! Filters from a seed: they are answered what their leaves say, and no row is lost.

mod support;

use support::filters::Sample;
use support::meets::meets;
use support::older::filings;
use support::sample::Random;
use weighpick::filter::LEAVES_MAX;
use weighpick::{Filter, Leaf, Pick, Predicate, Refusal, Value};

/// How many filters are tried.
const FILTERS: usize = 30_000;

/// How often each answer must have been given, so that the sample is not idle.
const PUT_TO_THE_TEST: usize = 1000;

/// Filters that are not too large, each with a row.
fn samples(seed: u64) -> impl Iterator<Item = (Sample, Vec<Value>)> {
    let mut random = Random::new(seed);
    let all = std::iter::repeat_with(move || {
        let sample = random.filter();
        let row = random.row_for(&sample);
        (sample, row)
    });
    all.filter(|(sample, _)| sample.tree.leaves().len() <= LEAVES_MAX)
        .take(FILTERS)
}

/// The partition value of each of a row's values, or none.
fn partition_values(sample: &Sample, row: &[Value]) -> Vec<Option<Value>> {
    let columns = sample.columns.iter().zip(row);
    columns
        .map(|((_, column_type, transform), value)| {
            transform.transform_literal(column_type, value).ok()
        })
        .collect()
}

/// Whether a projection accepts a partition value; without a predicate, what the question takes.
fn accepts(
    projection: Result<Option<Predicate>, Refusal>,
    partition_value: &Value,
    without: bool,
) -> Result<bool, Refusal> {
    let accepted = |predicate: Predicate| predicate.holds(partition_value);
    let accepted = projection?.map_or(Ok(without), accepted);
    Ok(accepted.expect("a value of the predicate's type"))
}

#[test]
fn a_filter_is_answered_what_its_leaves_say() {
    // Of each of the three questions: no, yes, and refusals.
    let mut answers = [[0; 3]; 3];
    for (sample, row) in samples(14) {
        let filter = Filter::new(&sample.columns, &sample.text);
        // Where a row has no partition value a missing one is as good: it has to be answered too.
        let partition = partition_values(&sample, &row).into_iter();
        let partition: Vec<Value> = partition.map(|p| p.unwrap_or(Value::Missing)).collect();
        let file = sample.columns.partition(&partition).expect("their types");
        let by_row = |place: usize, leaf: &Leaf| Ok(meets(leaf, &row[place]));
        let inclusive =
            |place: usize, leaf: &Leaf| accepts(leaf.project(), &partition[place], true);
        let strict =
            |place: usize, leaf: &Leaf| accepts(leaf.strict_project(), &partition[place], false);
        let given = [
            filter.row(&sample.columns.row(&row).expect("their types")),
            filter.project(&file),
            filter.strict_project(&file),
        ];
        let expected = [
            sample.tree.answer(false, &by_row),
            sample.tree.answer(false, &inclusive),
            sample.tree.answer(false, &strict),
        ];
        assert_eq!(given, expected, "{filter:?} of {row:?}");
        for (count, answer) in answers.iter_mut().zip(given) {
            count[answer.map_or(2, usize::from)] += 1;
        }
    }
    let [row, inclusive, strict] = answers;
    // A row of typed values is never refused; of all the rest there is enough.
    assert_eq!(row[2], 0);
    let mut counts = row[..2].iter().chain(&inclusive).chain(&strict);
    assert!(counts.all(|&count| count > PUT_TO_THE_TEST), "{answers:?}");
}

/// The partition values of a row, if every column that a leaf names has one. Of another column the row may lack it, and has a missing
/// one in its place.
fn filed(sample: &Sample, row: &[Value]) -> Option<Vec<Value>> {
    let named = |place| sample.tree.leaves().iter().any(|(at, _)| *at == place);
    let values = partition_values(sample, row).into_iter().enumerate();
    values
        .map(|(place, value)| match value {
            None if !named(place) => Some(Value::Missing),
            value => value,
        })
        .collect()
}

#[test]
fn no_row_is_lost() {
    let mut picks = [0; 3];
    for (sample, row) in samples(15) {
        let Some(partition) = filed(&sample, &row) else {
            continue;
        };
        let filter = Filter::new(&sample.columns, &sample.text);
        let file = sample.columns.partition(&partition).expect("their types");
        let met = filter.row(&sample.columns.row(&row).expect("their types"));
        let picked = filter.pick(&file);
        match picked {
            Pick::Skip => assert_eq!(met, Ok(false), "{filter:?} loses {row:?}"),
            Pick::Whole => assert_eq!(met, Ok(true), "{filter:?} lets {row:?} in"),
            Pick::Read => assert!(met.is_ok()),
        }
        picks[picked as usize] += 1;
    }
    assert!(
        picks.iter().all(|&count| count > PUT_TO_THE_TEST),
        "{picks:?}"
    );
}

/// Of files of older writers, whichever of their filings a row has: no file that it may lie in is skipped if it meets the filter, and
/// none is taken whole. By the ordinary pick some would be that hold other rows.
#[test]
fn no_row_of_older_writers_is_lost() {
    let (mut random, mut picks, mut wrongly_whole) = (Random::new(22), [0; 3], 0);
    for (sample, row) in samples(23) {
        let Some(partition) = filed(&sample, &row) else {
            continue;
        };
        let columns = sample.columns.iter().zip(partition);
        let filed = columns.map(|((_, column_type, transform), value)| {
            let filings = filings(column_type, transform, value);
            filings[random.below(filings.len())].clone()
        });
        let filed: Vec<Value> = filed.collect();
        let filter = Filter::new(&sample.columns, &sample.text);
        let file = sample.columns.partition(&filed).expect("their types");
        let met = filter.row(&sample.columns.row(&row).expect("their types"));
        let picked = filter.pick_older(&file);
        if picked == Pick::Skip {
            assert_eq!(met, Ok(false), "{filter:?} loses {row:?}");
        }
        picks[picked as usize] += 1;
        wrongly_whole += usize::from(filter.pick(&file) == Pick::Whole && met == Ok(false));
    }
    let [skip, filter, whole] = picks;
    assert!(skip.min(filter) > PUT_TO_THE_TEST, "{picks:?}");
    assert_eq!(whole, 0);
    assert!(wrongly_whole > 0);
}
