//! Every refusal of a filter is reached, and they come in document 02's order.

use weighpick::filter::{
    filter_project, filter_row, filter_strict_project, BRACKETS_MAX, LEAVES_MAX, TEXT_MAX,
};
use weighpick::sheet::{CONTENT_MAX, RECORD_SIZE};
use weighpick::{Columns, Filter, Literal, Refusal, Transform, Type, Value};

/// What the three routines say of a list, a text and values as bytes: of them as a row, and as partition values.
fn all(columns: &[u8], text: &[u8], values: &[u8]) -> [Result<bool, Refusal>; 3] {
    [filter_row, filter_project, filter_strict_project].map(|asked| asked(columns, text, values))
}

/// A list with a column `a` of Ints and a column `s` of Strings, which are their own partition values.
fn list() -> Columns {
    let columns = Columns::new([
        ("a", Type::Int, Transform::Identity),
        ("s", Type::String, Transform::Identity),
    ]);
    columns.expect("two columns")
}

/// A row of that list, as records.
fn values() -> Vec<u8> {
    let row = list().row(&[Literal::Int(0).into(), "é".into()]);
    row.expect("an Int and a String").as_bytes().to_vec()
}

/// The values with one byte set.
fn spoilt(at: usize, byte: u8) -> Vec<u8> {
    let mut values = values();
    values[at] = byte;
    values
}

/// Values of which the String is not UTF-8: its letter's second byte is cut off its first.
fn not_utf8() -> Vec<u8> {
    spoilt(RECORD_SIZE + 5, b'a')
}

/// What a text over that list is refused with, whatever the question.
fn refused(text: impl AsRef<[u8]>) -> Option<Refusal> {
    let [row, inclusive, strict] = all(list().as_bytes(), text.as_ref(), &values());
    assert_eq!((inclusive.err(), strict.err()), (row.err(), row.err()));
    row.err()
}

/// So many leaves.
fn leaves(count: usize) -> String {
    vec!["a<1"; count].join(" and ")
}

/// A text in so many brackets.
fn bracketed(count: usize, inside: &str) -> String {
    format!("{}{inside}{}", "(".repeat(count), ")".repeat(count))
}

/// A leaf with spaces behind it, up to so many bytes.
fn of_length(length: usize) -> String {
    format!("{:length$}", "a<1")
}

#[test]
fn malformed() {
    let list = list();
    let (list, values) = (list.as_bytes(), values());
    let whole = [Ok(true); 3];
    assert_eq!(all(list, b"a<1", &values), whole);
    let broken = [Err(Refusal::Malformed); 3];
    for columns in [&[], &list[1..], &list[..list.len() - 1]] {
        assert_eq!(all(columns, b"a<1", &values), broken);
    }
    for values in [
        Vec::new(),
        values[..RECORD_SIZE].to_vec(), // one value too few
        values.repeat(2),               // and two too many
        values[1..].to_vec(),
        spoilt(0, 1),                   // next
        spoilt(2, 8),                   // the length of an Int
        spoilt(RECORD_SIZE + 3, 1),     // a String's length
        spoilt(2 * RECORD_SIZE - 1, 1), // content after the length, of a column that no leaf names
    ] {
        assert_eq!(all(list, b"a<1", &values), broken);
        // Before everything that can be said of the text.
        assert_eq!(all(list, &[b'?'; TEXT_MAX + 1], &values), broken);
    }
}

#[test]
fn not_utf8_values() {
    let list = list();
    let refused = [Err(Refusal::NotUtf8); 3];
    // Of a column that no leaf names, and before everything that can be said of the text.
    for text in ["a<1", "s='a'", "?"] {
        assert_eq!(all(list.as_bytes(), text.as_bytes(), &not_utf8()), refused);
    }
    assert_eq!(
        all(list.as_bytes(), &[b'?'; TEXT_MAX + 1], &not_utf8()),
        refused
    );
    // After 3, of whichever value.
    let mut both = not_utf8();
    both[0] = 1;
    let malformed = [Err(Refusal::Malformed); 3];
    assert_eq!(all(list.as_bytes(), b"a<1", &both), malformed);
}

#[test]
fn outside_the_grammar() {
    let long = |length| format!("s='{}'", "a".repeat(length));
    assert_eq!(refused(long(CONTENT_MAX)), None);
    let texts = [
        "",
        " ",
        "()",
        "a",
        "a<",
        "<1",
        "and",
        "a<1)",
        "not",
        "a<1 or",
        "a<1,a<2",
        "a<1;",
        "a==1",
        "a<>1",
        "a! =1",
        "a\t<1",
        "a<1\n",
        "a=-",
        "a=1e3",
        "a<2147483648",
        "a<-2147483649",
        "s='a",
        "s=a",
        "s=\"a\"",
        "s startswith 1",
        "a startswith 'a'",
        "astartswith 1",
        "a Startswith 1",
        "x<1",
        "as<1",
        "or<1",
        "1<a",
        "a<s",
        "a is 1",
    ];
    for text in texts
        .map(String::from)
        .into_iter()
        .chain([long(CONTENT_MAX + 1)])
    {
        assert_eq!(refused(&text), Some(Refusal::OutsideGrammar), "{text}");
    }
    // A String's text that is not UTF-8.
    assert_eq!(refused(b"s='\xff'"), Some(Refusal::OutsideGrammar));
    assert_eq!(refused(b"a<1\xa0"), Some(Refusal::OutsideGrammar));
}

#[test]
fn too_large() {
    let large = Some(Refusal::TooLarge);
    assert_eq!(refused(of_length(TEXT_MAX)), None);
    assert_eq!(refused(of_length(TEXT_MAX + 1)), large);
    assert_eq!(refused(leaves(LEAVES_MAX)), None);
    assert_eq!(refused(leaves(LEAVES_MAX + 1)), large);
    assert_eq!(refused(bracketed(BRACKETS_MAX, "a<1")), None);
    assert_eq!(refused(bracketed(BRACKETS_MAX + 1, "a<1")), large);
    // Open at one place: pairs side by side are not counted together.
    let side_by_side = vec![bracketed(1, "a<1"); LEAVES_MAX].join("or");
    assert_eq!(refused(&side_by_side), None);
    let inside = format!("not({})", bracketed(BRACKETS_MAX, "a<1"));
    assert_eq!(refused(format!("a<1 and {inside}")), large);
    // Leaves and brackets both.
    assert_eq!(
        refused(bracketed(BRACKETS_MAX + 1, &leaves(LEAVES_MAX + 1))),
        large
    );
}

#[test]
fn ten_for_bytes_comes_before_nine_and_nine_before_the_other_two() {
    let outside = Some(Refusal::OutsideGrammar);
    assert_eq!(refused([b'?'; TEXT_MAX]), outside);
    assert_eq!(refused([b'?'; TEXT_MAX + 1]), Some(Refusal::TooLarge));
    assert_eq!(refused(leaves(LEAVES_MAX + 1) + "?"), outside);
    assert_eq!(refused(bracketed(BRACKETS_MAX + 1, "x<1")), outside);
    assert_eq!(refused(bracketed(BRACKETS_MAX + 1, "a<1") + ")"), outside);
    assert_eq!(refused("(".repeat(BRACKETS_MAX + 1) + "a<1"), outside);
}

/// What both questions say of partition values of a list with one column `x`; and a row is not refused.
fn projected(column_type: Type, transform: Transform, text: &str) -> [Result<bool, Refusal>; 2] {
    let columns = Columns::new([("x", column_type, transform)]).expect("a column");
    let filter = Filter::new(&columns, text);
    let row = columns.row(&[Value::Missing]).expect("missing");
    assert_eq!(filter.row(&row), Ok(false), "{text}");
    let file = columns.partition(&[Value::Missing]).expect("missing");
    [filter.project(&file), filter.strict_project(&file)]
}

#[test]
fn refused_leaves() {
    let no = Ok(false);
    for (column_type, transform, text, expected) in [
        (
            Type::Time,
            Transform::Year,
            "x<1",
            [Err(Refusal::NoResultType); 2],
        ),
        (
            Type::Int,
            Transform::Unknown,
            "x<1",
            [Err(Refusal::FeatureUnsupported); 2],
        ),
        (
            Type::Int,
            Transform::Truncate(1 << 31),
            "x<1",
            [Err(Refusal::DataInvalid); 2],
        ),
        (
            Type::Int,
            Transform::Truncate(0),
            "x<1",
            [Err(Refusal::Overflow); 2],
        ),
        (
            Type::Int,
            Transform::Truncate(10),
            "x < -2147483640",
            [Err(Refusal::Overflow), no],
        ),
        (
            Type::Int,
            Transform::Truncate(10),
            "x <= 2147483647",
            [no, Err(Refusal::Overflow)],
        ),
        // The turned leaf is what is projected.
        (
            Type::Int,
            Transform::Truncate(10),
            "not x >= -2147483640",
            [Err(Refusal::Overflow), no],
        ),
        (
            Type::Int,
            Transform::Truncate(10),
            "not x < -2147483640",
            [no, Err(Refusal::Overflow)],
        ),
        (
            Type::Int,
            Transform::Truncate(10),
            "not not x >= -2147483640",
            [no, Err(Refusal::Overflow)],
        ),
    ] {
        assert_eq!(projected(column_type, transform, text), expected, "{text}");
    }
}

/// A list with a column for each refusal of a projection, and one, `a`, that is refused nothing.
fn refusing() -> Columns {
    let columns = Columns::new([
        ("a", Type::Int, Transform::Identity),
        ("five", Type::Time, Transform::Year),
        ("six", Type::Int, Transform::Truncate(1 << 31)),
        ("seven", Type::Int, Transform::Unknown),
        ("eight", Type::Int, Transform::Truncate(0)),
    ]);
    columns.expect("five columns")
}

#[test]
fn the_leftmost_refusal_counts_also_where_the_others_decide() {
    let columns = refusing();
    let missing = vec![Value::Missing; 5];
    let mut file = missing.clone();
    file[0] = Literal::Int(0).into();
    let (row, file) = (columns.row(&missing), columns.partition(&file));
    let (row, file) = (row.expect("missing"), file.expect("an Int and missing"));
    let outcome = |number| Err(Refusal::from_number(number).expect("a refusal"));
    for (text, expected) in [
        // A column that no leaf names is never refused.
        ("a<1", Ok(true)),
        ("a<1 or five<1", outcome(5)),
        ("a>1 and six<1", outcome(6)),
        ("seven<1 or a<1", outcome(7)),
        ("eight<1 and a>1", outcome(8)),
        ("eight<1 and seven<1", outcome(8)),
        ("seven<1 and eight<1", outcome(7)),
        ("a<1 or (a<1 and (not six<1)) or five<1", outcome(6)),
        (
            "not (a<1 or not (eight<1 and five<1)) and seven<1",
            outcome(8),
        ),
        ("(((seven<1)) or five<1)", outcome(7)),
    ] {
        let filter = Filter::new(&columns, text);
        assert_eq!(filter.project(&file), expected, "{text}");
        assert_eq!(filter.strict_project(&file), expected, "{text}");
        assert_eq!(filter.row(&row), Ok(false), "{text}");
    }
    // 9 and 10 come before 5 to 8.
    let many = format!("seven<1 or {}", leaves(LEAVES_MAX));
    let deep = format!("seven<1 or {}", bracketed(BRACKETS_MAX + 1, "a<1"));
    for (text, expected) in [
        ("seven<1 or x<1", Refusal::OutsideGrammar),
        (&many, Refusal::TooLarge),
        (&deep, Refusal::TooLarge),
    ] {
        let filter = Filter::new(&columns, text);
        assert_eq!(filter.project(&file), Err(expected), "{text}");
        assert_eq!(filter.strict_project(&file), Err(expected), "{text}");
    }
}
