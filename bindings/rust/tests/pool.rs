//! One summary for two files: whose its ends are, its flag, and that it is the summary of the values of both.

mod support;

use support::files::{file, file_in_text, file_of, files_in, worlds};
use support::meets::compare;
use support::number;
use support::sample::Random;
use weighpick::sheet::RECORD_SIZE;
use weighpick::summary::{pool, Whose};
use weighpick::{Error, Literal, Refusal, Summary, Type, Value};

/// How many lists of files are tried.
const LISTS: usize = 5_000;

/// The text of two files' pooled summary, by their texts.
fn pooled(first: &str, second: &str) -> Result<String, Error> {
    let pooled = first.parse::<Summary>()?.pool(&second.parse()?)?;
    Ok(pooled.to_string())
}

#[test]
fn in_words() {
    for (first, second, expected) in [
        ("int 0 to 290", "int 10 to 450", "int 0 to 450"),
        ("int 0 to 450", "int 10 to 20", "int 0 to 450"),
        ("int 0 to 1", "int 8 to 9", "int 0 to 9"), // with what lies between
        ("int -3 to -2", "int -30 to 1", "int -30 to 1"),
        ("long -1 to 255", "long 0 to 256", "long -1 to 256"),
        (
            "date 0 to 0, missing",
            "date 1 to 1",
            "date 0 to 1, missing",
        ),
        ("date 7 to 8", "date missing", "date 7 to 8, missing"),
        ("date 7 to 8", "date empty", "date 7 to 8"),
        ("time missing", "time empty", "time missing"),
        ("time empty", "time empty", "time empty"),
        // By byte: a beginning is below what it begins, and a letter of two bytes above one of one.
        (
            "string \"ab\" to \"ab\"",
            "string \"a\" to \"abc\"",
            "string \"a\" to \"abc\"",
        ),
        (
            "string \"z\" to \"é\"",
            "string \"b\" to \"zz\"",
            "string \"b\" to \"é\"",
        ),
        (
            "binary 0x to 0x7fff",
            "binary 0x00 to 0x80",
            "binary 0x to 0x80",
        ),
    ] {
        for (first, second) in [(first, second), (second, first)] {
            let text = pooled(first, second);
            assert_eq!(text.as_deref(), Ok(expected), "{first} and {second}");
        }
    }
}

/// Whose ends are the pooled ones. Each record is a part of the summary that is named: the same bytes, at the same place.
fn whose(first: &Summary, second: &Summary) -> (Whose, Whose) {
    let summaries = [first.as_bytes(), second.as_bytes()];
    let pooled = pool(summaries[0], summaries[1]).expect("two summaries of one type");
    for (end, at) in [(pooled.lowest, 0), (pooled.highest, RECORD_SIZE)] {
        let part = &summaries[end.whose as usize][at..][..RECORD_SIZE];
        assert!(std::ptr::eq(part, &end.record[..]), "{first} and {second}");
    }
    (pooled.lowest.whose, pooled.highest.whose)
}

/// A literal of a type that stands for a digit: they ascend with it.
fn digit(column_type: Type, n: u8) -> Literal {
    match column_type {
        Type::String => Literal::string(n.to_string()),
        Type::Binary => Literal::binary([n]),
        _ => number(column_type, n.into()).expect("a small number"),
    }
}

#[test]
fn ends_are_not_copied_and_equal_ones_are_the_first_s() {
    use Whose::{First, Second};
    for (first, second, expected) in [
        (Some((1, 2)), Some((1, 2)), (First, First)),
        (Some((1, 2)), Some((1, 3)), (First, Second)),
        (Some((1, 2)), Some((0, 2)), (Second, First)),
        (Some((1, 2)), Some((0, 3)), (Second, Second)),
        (Some((0, 3)), Some((1, 2)), (First, First)),
        // A file without ends leaves them to the other, and to the first if neither has any.
        (None, Some((1, 2)), (Second, Second)),
        (Some((1, 2)), None, (First, First)),
        (None, None, (First, First)),
    ] {
        for column_type in Type::ALL {
            // Missing values make no difference.
            for (of_first, of_second) in [(false, false), (false, true), (true, false)] {
                let file = |ends: Option<(u8, u8)>, missing| {
                    let ends = ends.map(|(l, h)| [l, h].map(|n| digit(column_type, n)));
                    file(column_type, ends.as_ref().map(|[l, h]| (l, h)), missing)
                };
                let (first, second) = (file(first, of_first), file(second, of_second));
                assert_eq!(whose(&first, &second), expected, "{first} and {second}");
            }
        }
    }
}

/// 02: "missing if either has it"; "A file with no present value adds only its missing mark, an empty one nothing".
#[test]
fn flags() {
    let files = [
        "int 1 to 2",
        "int 1 to 2, missing",
        "int empty",
        "int missing",
    ];
    let expected = [[0, 1, 0, 1], [1, 1, 1, 1], [0, 1, 2, 3], [1, 1, 3, 3]];
    for (first, flags) in files.iter().zip(expected) {
        for (second, flag) in files.iter().zip(flags) {
            let (first, second) = (file_in_text(first), file_in_text(second));
            let pooled = pool(&first, &second).expect("two summaries of one type");
            assert_eq!(pooled.flag, flag);
        }
    }
}

/// 02: "the lower of the lowest ends, the higher of the highest".
fn expected(first: &Summary, second: &Summary) -> Summary {
    let missing = first.has_missing() || second.has_missing();
    let ends = match (first.ends(), second.ends()) {
        (Some(one), Some(other)) => {
            let lowest = std::cmp::min_by(one.0, other.0, compare);
            let highest = std::cmp::max_by(one.1, other.1, compare);
            Some((lowest, highest))
        }
        (ends, None) | (None, ends) => ends,
    };
    let ends = ends.as_ref().map(|(lowest, highest)| (lowest, highest));
    file(first.column_type(), ends, missing)
}

#[test]
fn every_two_files_of_small_worlds() {
    for world in Type::ALL.into_iter().flat_map(worlds) {
        let files = files_in(&world);
        let empty = Summary::empty(world[0].column_type());
        for first in &files {
            // As bytes: what is equal here is equal to the last byte.
            assert_eq!(first.pool(&empty).as_ref(), Ok(first));
            assert_eq!(empty.pool(first).as_ref(), Ok(first));
            assert_eq!(first.pool(first).as_ref(), Ok(first));
            for second in &files {
                let pooled = first.pool(second).expect("two files of one type");
                assert_eq!(pooled, expected(first, second), "{first} and {second}");
                assert_eq!(second.pool(first).as_ref(), Ok(&pooled));
                assert_eq!(Summary::from_bytes(pooled.as_bytes()).as_ref(), Ok(&pooled));
            }
        }
    }
}

/// What the upkeep job does: the summary of joined files is that of all their values.
#[test]
fn joined_files() {
    let mut random = Random::new(17);
    for _ in 0..LISTS {
        let column_type = random.pick(&Type::ALL);
        let files: Vec<Vec<Value>> = (0..random.below(5))
            .map(|_| random.file(column_type))
            .collect();
        let summaries: Vec<Summary> = files.iter().map(|f| file_of(column_type, f)).collect();
        let joined = (!files.is_empty()).then(|| file_of(column_type, &files.concat()));
        assert_eq!(Summary::pool_all(&summaries).as_ref(), Ok(&joined));
        // Neither the order nor what is pooled first makes a difference.
        assert_eq!(
            Summary::pool_all(summaries.iter().rev()),
            Ok(joined.clone())
        );
        let (some, others) = summaries.split_at(summaries.len() / 2);
        let halves = [some, others].map(|half| Summary::pool_all(half).expect("one type"));
        assert_eq!(Summary::pool_all(halves.iter().flatten()), Ok(joined));
    }
}

#[test]
fn lists_that_are_refused() {
    let pool_all = |files: &[&str]| {
        let files: Result<Vec<Summary>, Error> = files.iter().map(|file| file.parse()).collect();
        Summary::pool_all(&files.expect("summaries")).map(|pooled| pooled.map(|p| p.to_string()))
    };
    assert_eq!(pool_all(&[]), Ok(None));
    assert_eq!(pool_all(&["int 1 to 2"]), Ok(Some("int 1 to 2".into())));
    let turned = Err(Refusal::WrongSummary);
    assert_eq!(pool_all(&["int 2 to 1"]), turned);
    assert_eq!(pool_all(&["int 1 to 1", "int empty", "int 2 to 1"]), turned);
    let types = Err(Refusal::DifferentTypes);
    assert_eq!(pool_all(&["int 1 to 2", "date 1 to 2"]), types);
    assert_eq!(pool_all(&["int empty", "int empty", "date empty"]), types);
    // The first is handed on.
    assert_eq!(
        pool_all(&["int 1 to 1", "date 1 to 1", "int 2 to 1"]),
        types
    );
}
