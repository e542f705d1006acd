//! The picks of two leaves, joined by "and" and "or": each entry of the two tables is what the rows of files over two columns say.

mod support;

use std::collections::BTreeMap;

use support::meets::meets;
use support::{leaves_of, number};
use weighpick::{Leaf, Literal, Pick, Transform, Type, Value, Verdict};

const PAGE: &str = include_str!("../src/pick.rs");

/// How two picks are joined.
type Join = fn(Pick, Pick) -> Pick;

/// A row has a value in each of two columns, and so has a file: its partition values.
type Two = [Value; 2];

/// The rows of each file, by its partition values in words.
type Files = BTreeMap<String, (Two, Vec<Two>)>;

/// Both columns: type, transform, and the numbers of the rows. A value may be missing too.
const COLUMNS: [(Type, Transform, &[i64]); 2] = [
    (
        Type::Int,
        Transform::Truncate(3),
        &[-4, -3, -1, 0, 1, 2, 3, 5],
    ),
    (Type::Date, Transform::Month, &[-32, -31, -1, 0, 1, 30, 31]),
];

/// The literals of a column.
fn literals(column: usize) -> Vec<Literal> {
    let (column_type, _, numbers) = COLUMNS[column];
    let literals = numbers.iter().map(|v| number(column_type, *v));
    literals.map(|l| l.expect("in the type")).collect()
}

/// A row of every two values, missing ones among them, in the file of its partition values.
fn files() -> Files {
    let values = [0, 1].map(|column| {
        let present = literals(column).into_iter().map(Value::from);
        present.chain([Value::Missing]).collect::<Vec<_>>()
    });
    let mut files = Files::new();
    for (grams, day) in values[0]
        .iter()
        .flat_map(|grams| values[1].iter().map(move |day| (grams, day)))
    {
        let row = [grams.clone(), day.clone()];
        let partition = [0, 1].map(|column| {
            let (column_type, transform, _) = COLUMNS[column];
            let value = transform.transform_literal(column_type, &row[column]);
            value.expect("a partition value")
        });
        let words = format!("{} {}", partition[0], partition[1]);
        files
            .entry(words)
            .or_insert((partition, Vec::new()))
            .1
            .push(row);
    }
    files
}

/// What a leaf says of a file, and which of its rows meet it.
type Said = (Pick, Vec<bool>);

/// Of every leaf on either column, what it says of each file.
fn said(files: &Files) -> Vec<Vec<Said>> {
    let of_leaf = |column: usize, leaf: &Leaf| {
        let picker = leaf.picker();
        let of_file = |(partition, rows): &(Two, Vec<Two>)| {
            let pick = picker.pick(&partition[column]);
            let met = rows.iter().map(|row| meets(leaf, &row[column]));
            (
                pick.expect("a value of the partition's type"),
                met.collect(),
            )
        };
        files.values().map(of_file).collect()
    };
    let of_column = |column: usize| {
        let (column_type, transform, _) = COLUMNS[column];
        let literals = literals(column);
        let sets: Vec<Vec<Literal>> = literals.windows(2).map(<[Literal]>::to_vec).collect();
        let leaves = leaves_of(column_type, transform, &literals, &sets);
        leaves
            .iter()
            .map(|leaf| of_leaf(column, leaf))
            .collect::<Vec<_>>()
    };
    [0, 1].into_iter().flat_map(of_column).collect()
}

/// Whether some row of some file meets the whole, and whether all rows of all files do, of files that two leaves pick so.
#[derive(Clone, Copy)]
struct Met {
    some: bool,
    all: bool,
}

/// Of every two leaves, on one column or on both, what the rows say of the files that are picked so by the one and the other: none
/// may be skipped that some row of meets the whole, and none taken whole with another row.
fn by_rows(said: &[Vec<Said>], join: fn(bool, bool) -> bool) -> [[Option<Pick>; 3]; 3] {
    let mut met = [[None; 3]; 3];
    for (one, other) in said
        .iter()
        .flat_map(|one| said.iter().map(move |other| (one, other)))
    {
        for ((pick, by_one), (other_pick, by_other)) in one.iter().zip(other) {
            let entry = &mut met[*pick as usize][*other_pick as usize];
            let entry = entry.get_or_insert(Met {
                some: false,
                all: true,
            });
            for (one, other) in by_one.iter().zip(by_other) {
                entry.some |= join(*one, *other);
                entry.all &= join(*one, *other);
            }
        }
    }
    met.map(|line| {
        line.map(|met| {
            met.map(|met| match met {
                Met { some: false, .. } => Pick::Skip,
                Met { all: true, .. } => Pick::Whole,
                _ => Pick::Read,
            })
        })
    })
}

#[test]
fn the_tables_are_what_rows_say() {
    let said = said(&files());
    let (and, or) = (by_rows(&said, |a, b| a && b), by_rows(&said, |a, b| a || b));
    for one in Pick::ALL {
        for other in Pick::ALL {
            let entry = |table: [[Option<Pick>; 3]; 3]| table[one as usize][other as usize];
            assert_eq!(Some(one.and(other)), entry(and), "{one} and {other}");
            assert_eq!(Some(one.or(other)), entry(or), "{one} or {other}");
        }
    }
}

/// The tables of the page are those of the functions.
#[test]
fn the_tables_stand_on_the_page() {
    for (word, join) in [("and", Pick::and as Join), ("or", Pick::or)] {
        let mut table = format!("| {word} | Skip | Read | Whole |\n|---|---|---|---|\n");
        for one in Pick::ALL {
            let [skip, read, whole] = Pick::ALL.map(|other| join(one, other));
            table += &format!("| **{one:?}** | {skip:?} | {read:?} | {whole:?} |\n");
        }
        let lines: String = table.lines().map(|l| format!("    /// {l}\n")).collect();
        assert!(PAGE.contains(&lines), "{table}");
    }
}

/// Why there is no "not": some file is skipped by a leaf and by its opposite, and has rows.
#[test]
fn the_opposite_of_skip_is_not_whole() {
    let below: Leaf = "int truncate[3] < 1".parse().expect("a leaf");
    for leaf in [below.negate(), below] {
        assert_eq!(
            leaf.picker().pick(&Value::Missing),
            Ok(Pick::Skip),
            "{leaf}"
        );
        assert!(!meets(&leaf, &Value::Missing), "{leaf}");
    }
}

#[test]
fn in_words() {
    assert_eq!(
        Pick::ALL.map(|pick| pick.to_string()),
        ["skip", "read", "whole"]
    );
    assert_eq!(
        Verdict::ALL.map(|verdict| verdict.to_string()),
        ["skip", "read", "whole"]
    );
}
