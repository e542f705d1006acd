//! Files picked by summaries of their partition values, one by one and in groups: no row is lost, and a file that is taken whole has
//! no other rows.

mod support;

use support::files::file_of;
use support::meets::meets;
use support::sample::Random;
use support::{leaves_of, number};
use weighpick::{Error, Leaf, Literal, Pick, Refusal, Summary, Transform, Type, Value};

/// How many leaves are tried.
const LEAVES: usize = 10_000;

/// What a leaf in text does with a file whose summary is a text.
fn pick(leaf: &str, file: &str) -> Result<Pick, Error> {
    let picker = leaf.parse::<Leaf>()?.picker();
    Ok(picker.pick_summary(&file.parse::<Summary>()?)?)
}

#[test]
fn skip_read_and_whole() {
    let below = |file| pick("int truncate[10] < 295", file);
    assert_eq!(below("int 0 to 280"), Ok(Pick::Whole));
    assert_eq!(below("int 0 to 280, missing"), Ok(Pick::Read));
    // The inclusive predicate accepts all of them, but there may be a row of 297.
    assert_eq!(below("int 0 to 290"), Ok(Pick::Read));
    assert_eq!(below("int 290 to 450"), Ok(Pick::Read));
    assert_eq!(below("int 300 to 450"), Ok(Pick::Skip));
    assert_eq!(below("int 300 to 450, missing"), Ok(Pick::Skip));
    assert_eq!(below("int missing"), Ok(Pick::Skip));
    assert_eq!(below("int empty"), Ok(Pick::Skip));
    assert_eq!(pick("date month IS NULL", "int missing"), Ok(Pick::Whole));
    // Missing values count as different.
    let others = |file| pick("int truncate[10] != 5", file);
    assert_eq!(others("int 10 to 20, missing"), Ok(Pick::Whole));
    assert_eq!(others("int 0 to 20, missing"), Ok(Pick::Read));
    assert_eq!(others("int missing"), Ok(Pick::Whole));
    // Texts are never taken whole.
    let starts = |file| pick("string truncate[4] STARTS WITH \"ab\"", file);
    assert_eq!(starts("string \"ab\" to \"abcd\""), Ok(Pick::Read));
    assert_eq!(starts("string \"ac\" to \"b\""), Ok(Pick::Skip));
}

#[test]
fn without_a_predicate_and_after_a_refusal() {
    // No inclusive one: nothing is skipped, not even an empty file.
    for file in ["int 0 to 0", "int missing", "int empty"] {
        assert_eq!(pick("int void = 1", file), Ok(Pick::Read));
        assert_eq!(pick("int truncate[10] < -2147483640", file), Ok(Pick::Read));
    }
    for file in ["int 0 to 0", "int 0 to 0, missing", "int empty"] {
        assert_eq!(pick("int truncate[10] != 5", file), Ok(Pick::Read));
    }
    assert_eq!(
        pick("int truncate[10] != 5", "int 10 to 20"),
        Ok(Pick::Whole)
    );
    let lowest = "int -2147483648 to -2147483648";
    assert_eq!(
        pick("int truncate[10] < -2147483640", lowest),
        Ok(Pick::Whole)
    );
    // No strict one: nothing is taken whole.
    assert_eq!(pick("int truncate[1] = 5", "int 5 to 5"), Ok(Pick::Read));
    assert_eq!(
        pick("int truncate[10] <= 2147483647", "int 0 to 0"),
        Ok(Pick::Read)
    );
    // Partition values have no type.
    for leaf in ["time year = 0", "int unknown = 0"] {
        assert_eq!(pick(leaf, "string \"b\" to \"a\""), Ok(Pick::Read));
    }
}

#[test]
fn a_summary_that_is_none_of_the_table_s() {
    let wrong = Err(Error::Refused(Refusal::WrongSummary));
    for leaf in ["date month = 31", "date month != 31", "date month IS NULL"] {
        assert_eq!(pick(leaf, "date 1 to 2"), wrong, "a month is an Int");
        assert_eq!(pick(leaf, "int 2 to 1"), wrong);
        assert!(pick(leaf, "int 1 to 2").is_ok());
    }
    // Without a predicate it is looked at all the same.
    assert_eq!(pick("int void = 1", "date 1 to 1"), wrong);
    assert_eq!(pick("int void = 1", "int 2 to 1"), wrong);
    assert_eq!(pick("int void = 1", "int 1 to 2"), Ok(Pick::Read));
}

/// Rows of a file with their partition values.
type Rows = Vec<(Value, Value)>;

/// The summary of a file's partition values.
fn summary_of(partition_type: Type, rows: &Rows) -> Summary {
    let values: Vec<Value> = rows.iter().map(|(_, value)| value.clone()).collect();
    file_of(partition_type, &values)
}

/// Picks a file by the summary of its partition values, and holds the pick against its rows, and against the picks by each value.
fn check(leaf: &Leaf, partition_type: Type, rows: &Rows) -> Pick {
    let file = summary_of(partition_type, rows);
    let picker = leaf.picker();
    let picked = picker
        .pick_summary(&file)
        .expect("a summary of the partition's type");
    for (row, value) in rows {
        let by_value = picker.pick(value).expect("a value of the partition's type");
        match picked {
            Pick::Skip => assert!(!meets(leaf, row), "{leaf} loses {row} of {file}"),
            Pick::Whole => assert!(meets(leaf, row), "{leaf} lets {row} of {file} in"),
            Pick::Read => continue,
        }
        assert_eq!(by_value, picked, "{leaf} at {value} of {file}");
    }
    picked
}

/// Holds the pick of a group of files against what its rows meet, and a skip against the picks of its files.
fn check_group(leaf: &Leaf, partition_type: Type, files: &[Rows]) -> Pick {
    let summaries = files.iter().map(|rows| summary_of(partition_type, rows));
    let summaries: Vec<Summary> = summaries.collect();
    let pooled = Summary::pool_all(&summaries).expect("summaries of one type");
    let picked = leaf.picker().pick_summary(&pooled.expect("some files"));
    let picked = picked.expect("a summary of the partition's type");
    for rows in files {
        match picked {
            Pick::Skip => assert_eq!(check(leaf, partition_type, rows), Pick::Skip),
            Pick::Whole => assert!(rows.iter().all(|(row, _)| meets(leaf, row)), "{leaf}"),
            Pick::Read => {}
        }
    }
    picked
}

/// Rows with their partition values, those that have one.
fn filed(column_type: Type, transform: Transform, rows: Vec<Value>) -> Rows {
    let rows = rows.into_iter().filter_map(|row| {
        let value = transform.transform_literal(column_type, &row).ok()?;
        Some((row, value))
    });
    rows.collect()
}

#[test]
fn no_row_is_lost_from_a_seed() {
    let mut random = Random::new(16);
    let mut picks = [0; 3];
    for _ in 0..LEAVES {
        let leaf = random.leaf();
        let (column_type, transform) = (leaf.column_type(), leaf.transform());
        let Ok(partition_type) = transform.result_type(column_type) else {
            continue;
        };
        let rows = filed(column_type, transform, random.rows(&leaf));
        // Some of the rows, close together or not, with missing ones or without.
        for _ in 0..4 {
            let mut some = rows.clone();
            some.retain(|(row, _)| {
                random.below(3) == 0 && (*row != Value::Missing || random.below(2) == 0)
            });
            picks[check(&leaf, partition_type, &some) as usize] += 1;
        }
    }
    assert!(picks.iter().all(|&picks| picks > 1000), "{picks:?}");
}

/// Groups of files by their pooled summary: one that is skipped holds no row that meets the leaf, and each of its files is skipped
/// by itself too. A group that is taken whole has no other rows.
#[test]
fn no_row_is_lost_in_groups() {
    let mut random = Random::new(18);
    let mut picks = [0; 3];
    for _ in 0..LEAVES {
        let leaf = random.leaf();
        let (column_type, transform) = (leaf.column_type(), leaf.transform());
        let Ok(partition_type) = transform.result_type(column_type) else {
            continue;
        };
        let rows = filed(column_type, transform, random.rows(&leaf));
        // Each row lies in one of three files, or in none.
        let mut files = [const { Rows::new() }; 3];
        for row in rows {
            if let Some(file) = files.get_mut(random.below(2 * 3)) {
                file.push(row);
            }
        }
        picks[check_group(&leaf, partition_type, &files) as usize] += 1;
    }
    assert!(picks.iter().all(|&picks| picks > 200), "{picks:?}");
}

#[test]
fn no_row_is_lost_in_small_worlds() {
    for (column_type, transform, range) in [
        (Type::Int, Transform::Truncate(3), -12..=12),
        (Type::Long, Transform::Identity, -4..=4),
        (Type::Date, Transform::Month, -65..=65),
        (Type::Date, Transform::Year, -400..=400),
    ] {
        let numbers = range.filter_map(|v| number(column_type, v));
        let rows: Vec<Value> = numbers.map(Value::from).collect();
        let rows = filed(column_type, transform, rows);
        let partition_type = transform.result_type(column_type).expect("a valid pair");
        let mut values: Vec<&Value> = rows.iter().map(|(_, value)| value).collect();
        values.dedup();
        // Literals at both ends of every partition value.
        let ends = rows.windows(2).filter(|pair| pair[0].1 != pair[1].1);
        let literals: Vec<Literal> = ends
            .flat_map(|pair| [&pair[0].0, &pair[1].0])
            .filter_map(|row| match row {
                Value::Present(literal) => Some(literal.clone()),
                Value::Missing => None,
            })
            .collect();
        let sets: Vec<Vec<Literal>> = literals.windows(2).map(<[Literal]>::to_vec).collect();
        let mut picks = [0; 3];
        for leaf in leaves_of(column_type, transform, &literals, &sets) {
            // Every file of neighbouring partition values, up to three, with all their rows; and missing ones.
            for window in [1, 2, 3].iter().flat_map(|&n| values.windows(n)) {
                let mut some = rows.clone();
                some.retain(|(_, value)| window.contains(&value));
                picks[check(&leaf, partition_type, &some) as usize] += 1;
                some.push((Value::Missing, Value::Missing));
                picks[check(&leaf, partition_type, &some) as usize] += 1;
            }
        }
        assert!(picks.iter().all(|&picks| picks > 20), "{picks:?}");
    }
}
