//! What filters are answered: of rows, and of partition values under both questions.

use weighpick::{Columns, Error, Filter, Literal, Pick, Refusal, Transform, Type, Value};

/// Document 02's example.
const EXAMPLE: &str = "lot startswith 'ab' and not (grams < 300 or grams = 500)";

/// The columns of the example, in a table that is split by both.
fn weighings() -> Columns {
    let columns = Columns::new([
        ("lot", Type::String, Transform::Truncate(4)),
        ("grams", Type::Int, Transform::Truncate(10)),
    ]);
    columns.expect("two columns")
}

/// Three columns of Ints that are their own partition values.
fn three() -> Columns {
    let column = |name| (name, Type::Int, Transform::Identity);
    Columns::new(["a", "b", "c"].map(column)).expect("three columns")
}

/// A lot and grams as values; none is a missing one.
fn values(lot: Option<&str>, grams: Option<i32>) -> [Value; 2] {
    [
        lot.map(Literal::from).into(),
        grams.map(Literal::Int).into(),
    ]
}

#[test]
fn the_example_by_row() -> Result<(), Error> {
    let columns = weighings();
    let filter = Filter::new(&columns, EXAMPLE);
    for (lot, grams, expected) in [
        (Some("ab12x"), Some(310), true),
        (Some("ab"), Some(300), true),
        (Some("ab12x"), Some(299), false),
        (Some("ab12x"), Some(500), false),
        (Some("ab12x"), Some(501), true),
        (Some("a"), Some(310), false),
        (Some("Ab12x"), Some(310), false),
        (None, Some(310), false),
        (Some("ab12x"), None, false),
        (None, None, false),
    ] {
        let row = columns.row(&values(lot, grams))?;
        assert_eq!(filter.row(&row), Ok(expected), "{lot:?} {grams:?}");
    }
    Ok(())
}

#[test]
fn the_example_by_partition_values() -> Result<(), Error> {
    let columns = weighings();
    let filter = Filter::new(&columns, EXAMPLE);
    for (lot, grams, inclusive, strict) in [
        (Some("ab12"), Some(310), true, true),
        (Some("ab"), Some(300), true, true),
        (Some("ab12"), Some(290), false, false),
        // It may hold 500 g, and 501.
        (Some("ab12"), Some(500), true, false),
        (Some("a"), Some(310), false, false),
        (None, Some(310), false, false),
        (Some("ab12"), None, false, false),
    ] {
        let file = columns.partition(&values(lot, grams))?;
        let answers = (filter.project(&file), filter.strict_project(&file));
        assert_eq!(answers, (Ok(inclusive), Ok(strict)), "{lot:?} {grams:?}");
    }
    Ok(())
}

/// What a filter over `a`, `b` and `c` should say, where each holds or does not.
type Truth = fn(bool, bool, bool) -> bool;

#[test]
fn words_and_brackets() -> Result<(), Error> {
    let texts: [(&str, Truth); 10] = [
        ("a=1 or b=1 and c=1", |a, b, c| a || b && c),
        ("a=1 and b=1 or c=1", |a, b, c| a && b || c),
        ("(a=1 or b=1) and c=1", |a, b, c| (a || b) && c),
        ("a=1 and (b=1 or c=1)", |a, b, c| a && (b || c)),
        ("not a=1 and b=1", |a, b, _| !a && b),
        ("not a=1 or b=1 and not c=1", |a, b, c| !a || b && !c),
        ("not (a=1 and b=1) or c=1", |a, b, c| !(a && b) || c),
        ("not (a=1 or not b=1) and c=1", |a, b, c| !a && b && c),
        ("not not a=1 or not not not b=1", |a, b, _| a || !b),
        ("not((not((a=1)))and(b!=1))or(c>1)", |a, b, _| a || b),
    ];
    let columns = three();
    for (text, truth) in texts {
        let filter = Filter::new(&columns, text);
        for bits in 0..8 {
            let holds = [0, 1, 2].map(|place| bits >> place & 1 == 1);
            let values = holds.map(|holds| Value::from(Literal::Int(i32::from(holds))));
            let expected = Ok(truth(holds[0], holds[1], holds[2]));
            assert_eq!(
                filter.row(&columns.row(&values)?),
                expected,
                "{text} of {holds:?}"
            );
            let file = columns.partition(&values)?;
            let answers = [filter.project(&file), filter.strict_project(&file)];
            assert_eq!(answers, [expected; 2], "{text} of {holds:?}");
        }
    }
    Ok(())
}

#[test]
fn a_missing_value_counts_as_different() -> Result<(), Error> {
    let columns = three();
    for (text, met, turned) in [
        ("a<1", false, false),
        ("a<=1", false, false),
        ("a>1", false, false),
        ("a>=1", false, false),
        ("a=1", false, true),
        ("a!=1", true, false),
        ("a startswith 1", false, true),
    ] {
        for (text, met) in [
            (text.to_string(), met),
            (format!("not {text}"), turned),
            (format!("not not {text}"), met),
            (format!("{text} or not {text}"), met || turned),
            (format!("{text} and not {text}"), false),
        ] {
            let filter = Filter::new(&columns, &text);
            let missing = [Value::Missing, Value::Missing, Value::Missing];
            assert_eq!(filter.row(&columns.row(&missing)?), Ok(met), "{text}");
            let file = columns.partition(&missing)?;
            assert_eq!(filter.project(&file), Ok(met), "{text}");
            assert_eq!(filter.strict_project(&file), Ok(met), "{text}");
        }
    }
    Ok(())
}

/// 02: "Bakeries asking for lots other than 'ab12' want the unlabelled sacks too."
#[test]
fn unlabelled_sacks() -> Result<(), Error> {
    let columns = Columns::new([("lot", Type::String, Transform::Truncate(4))])?;
    let (row, file) = (
        columns.row(&[Value::Missing])?,
        columns.partition(&[Value::Missing])?,
    );
    for (text, met) in [
        ("lot != 'ab12'", true),
        ("not lot = 'ab12'", true),
        ("not lot startswith 'ab'", true),
        ("not lot startswith 'ab12'", true),
        ("not lot startswith 'ab123'", true),
        ("lot = 'ab12'", false),
        ("lot startswith 'ab'", false),
        ("lot < 'ab12' or lot >= 'ab12'", false),
    ] {
        let filter = Filter::new(&columns, text);
        let picked = if met { Pick::Whole } else { Pick::Skip };
        assert_eq!(
            (filter.row(&row), filter.pick(&file)),
            (Ok(met), picked),
            "{text}"
        );
    }
    Ok(())
}

#[test]
fn literals_of_every_type() -> Result<(), Error> {
    let numbers = [
        (Literal::Int(-7), "x = -007"),
        (Literal::Int(i32::MIN), "x=-2147483648"),
        (Literal::Long(i64::MAX), "x = 9223372036854775807"),
        (Literal::Date(0), "x = -0"),
        (Literal::Time(1), "x=1"),
        (Literal::Timestamp(-1), "x=-1"),
        (Literal::Timestamptz(2), "  x  =  2  "),
        (Literal::TimestampNs(3), "x=3"),
        (Literal::TimestamptzNs(4), "(x=4)"),
        (Literal::from("é\t AND"), "x='é\t AND'"),
        (Literal::from(""), "x=''"),
        (Literal::binary("ab"), "x startswith'a'"),
    ];
    for (literal, text) in numbers {
        let column = ("x", literal.column_type(), Transform::Identity);
        let columns = Columns::new([column])?;
        let row = columns.row(&[literal.into()])?;
        assert_eq!(Filter::new(&columns, text).row(&row), Ok(true), "{text}");
    }
    // A text may have any bytes.
    let columns = Columns::new([("x", Type::Binary, Transform::Identity)])?;
    let row = columns.row(&[Literal::binary([0, 0xff, b'"']).into()])?;
    let text = b"x = '\0\xff\"'";
    assert_eq!(Filter::new(&columns, text).row(&row), Ok(true));
    assert_eq!(Filter::new(&columns, &text.to_vec()).row(&row), Ok(true));
    Ok(())
}

#[test]
fn lots_kept_as_binary() -> Result<(), Error> {
    let columns = Columns::new([("lot", Type::Binary, Transform::Truncate(2))])?;
    let texts: [(&[u8], &[u8], bool, bool); 10] = [
        (b"lot startswith 'a'", b"ab", true, true),
        (b"lot startswith 'ab'", b"ab", true, true),
        (b"lot startswith 'ab'", b"a", false, false),
        (b"lot startswith 'ab'", b"ac", false, false),
        (b"not lot startswith 'ab'", b"ab", false, false),
        // The file of "ab" may hold lots that start with "abc" and lots that don't.
        (b"lot startswith 'abc'", b"ab", true, false),
        (b"not lot startswith 'abc'", b"ab", true, false),
        (b"not lot startswith 'abc'", b"ac", true, true),
        (b"lot < '\xff\x80\0'", b"\xff\x80", true, false),
        (b"lot < '\xff\x80\0'", b"\xff\x7f", true, true),
    ];
    for (text, lot, inclusive, strict) in texts {
        let filter = Filter::new(&columns, text);
        let file = columns.partition(&[Literal::binary(lot).into()])?;
        let answers = (filter.project(&file), filter.strict_project(&file));
        assert_eq!(
            answers,
            (Ok(inclusive), Ok(strict)),
            "{filter:?} of {lot:?}"
        );
    }
    Ok(())
}

#[test]
fn without_a_predicate_inclusive_is_yes_and_strict_is_no() -> Result<(), Error> {
    let void = Columns::new([("x", Type::Int, Transform::Void)])?;
    let file = void.partition(&[Value::Missing])?;
    for text in ["x < 1", "not x < 1", "x<1 and not x<1"] {
        let filter = Filter::new(&void, text);
        let answers = (filter.project(&file), filter.strict_project(&file));
        assert_eq!(answers, (Ok(true), Ok(false)), "{text}");
    }
    // Each leaf by itself, not the whole: the other one still decides.
    let both = Columns::new([
        ("x", Type::Int, Transform::Void),
        ("y", Type::Int, Transform::Identity),
    ])?;
    let file = both.partition(&[Value::Missing, Literal::Int(5).into()])?;
    assert_eq!(Filter::new(&both, "x<1 and y<1").project(&file), Ok(false));
    let either = Filter::new(&both, "x<1 or y>1");
    assert_eq!(either.strict_project(&file), Ok(true));
    Ok(())
}

#[test]
fn a_check_needs_no_values() {
    let columns = weighings();
    assert_eq!(Filter::new(&columns, EXAMPLE).check(), Ok(()));
    // Refusals of projections hang on the question, and are none of the text's.
    let lowest = Filter::new(&columns, "grams < -2147483640");
    assert_eq!(lowest.check(), Ok(()));
    let undeclared = Filter::new(&columns, "lots < 'a'");
    assert_eq!(undeclared.check(), Err(Refusal::OutsideGrammar));
    let longer = Filter::new(&columns, &[b' '; weighpick::filter::TEXT_MAX + 1]).check();
    assert_eq!(longer, Err(Refusal::TooLarge));
}
