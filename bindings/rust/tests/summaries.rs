//! Summaries are built of typed ends, and what is written is read back, as bytes and as text.

mod support;

use support::files::{all_ends, file, file_of};
use support::sample::Random;
use weighpick::sheet::CONTENT_MAX;
use weighpick::{Leaf, Literal, Pick, Summary, Type, Value, ValueError};

#[test]
fn bytes_and_texts() {
    let mut random = Random::new(13);
    for column_type in Type::ALL {
        let literals: Vec<Literal> = (0..20).map(|_| random.literal(column_type)).collect();
        for (ends, missing) in all_ends(&literals) {
            // Not in order, which makes no difference here.
            let summary = file(column_type, ends, missing);
            assert_eq!(
                Summary::from_bytes(summary.as_bytes()).as_ref(),
                Ok(&summary)
            );
            assert_eq!(summary.to_string().parse().as_ref(), Ok(&summary));
            let said = (summary.column_type(), summary.ends(), summary.has_missing());
            let ends = ends.map(|(low, high)| (low.clone(), high.clone()));
            assert_eq!(said, (column_type, ends, missing));
        }
    }
}

#[test]
fn texts() {
    for text in [
        "int -2 to 1",
        "date 0 to 0, missing",
        "string \"\" to \" to \", missing",
        "binary 0x to 0x00ff",
        "long missing",
        "time empty",
    ] {
        assert_eq!(
            text.parse::<Summary>().map(|read| read.to_string()),
            Ok(text.to_string())
        );
    }
    for text in [
        "",
        "int",
        "int ",
        "int 1",
        "int 1 to",
        "int 1 to ",
        "int 1to 2",
        "int 1 to 2 ",
        "int 1 to 2,missing",
        "int 1 to 2, ",
        "int 1 to 2, empty",
        "int 1 to 2147483648",
        "int missing, missing",
        "int empty, missing",
        "missing",
        "string a to b",
    ] {
        assert!(text.parse::<Summary>().is_err(), "{text}");
    }
    let wrong = "int 1 to".parse::<Summary>().expect_err("no summary");
    assert_eq!(wrong.to_string(), "`int 1 to` is no summary");
}

#[test]
fn ends_are_of_one_type_and_fit() {
    let wrong = Summary::between(&Literal::Int(1), &Literal::Date(2));
    assert_eq!(wrong, Err(ValueError::WrongType(Type::Int, Type::Date)));
    let long = Literal::binary([0; CONTENT_MAX + 1]);
    let short = Literal::binary([0; CONTENT_MAX]);
    for (lowest, highest) in [(&short, &long), (&long, &short)] {
        let wrong = Summary::between(lowest, highest);
        assert_eq!(wrong, Err(ValueError::TooLong(CONTENT_MAX + 1)));
    }
    assert!(Summary::between(&short, &short).is_ok());
}

/// A file of which an end is not known is not one without values, which would be skipped.
#[test]
fn ends_that_are_not_known() {
    let (lowest, highest) = (Literal::Int(3), Literal::Int(7));
    let known = Summary::from_ends(Some(&lowest), Some(&highest));
    assert_eq!(known, Summary::between(&lowest, &highest).map(Some));
    assert_eq!(Summary::from_ends(Some(&lowest), None), Ok(None));
    assert_eq!(Summary::from_ends(None, Some(&highest)), Ok(None));
    assert_eq!(Summary::from_ends(None, None), Ok(None));
    let wrong = Summary::from_ends(Some(&lowest), Some(&Literal::Date(7)));
    assert_eq!(wrong, Err(ValueError::WrongType(Type::Int, Type::Date)));
    let picker = "int identity = 5".parse::<Leaf>().expect("a leaf").picker();
    let empty = picker.pick_summary(&Summary::empty(Type::Int));
    assert_eq!(empty, Ok(Pick::Skip));
}

#[test]
fn of_the_values_of_a_file() {
    let ints = |values: &[Option<i32>]| {
        let values = values.iter().map(|v| v.map(Literal::Int).into());
        file_of(Type::Int, &values.collect::<Vec<Value>>()).to_string()
    };
    assert_eq!(ints(&[Some(3), Some(-10), Some(0)]), "int -10 to 3");
    assert_eq!(ints(&[None, Some(3)]), "int 3 to 3, missing");
    assert_eq!(ints(&[None]), "int missing");
    assert_eq!(ints(&[]), "int empty");
}
