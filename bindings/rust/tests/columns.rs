//! Column lists: what can be built, what cannot and why, and that the library judges alike.

mod support;

use support::TRANSFORMS;
use weighpick::filter::{COLUMNS_MAX, COLUMN_SIZE, NAME_SIZE};
use weighpick::{ColumnError, Columns, Refusal, Transform, Type};

/// A list of Ints with these names.
fn ints<'a>(names: impl IntoIterator<Item = &'a str>) -> Result<Columns, ColumnError> {
    let columns = names
        .into_iter()
        .map(|name| (name, Type::Int, Transform::Identity));
    Columns::new(columns)
}

/// The entry of an Int column with a name of any kind, cut to the bytes that it has room for.
fn entry(name: &str) -> Vec<u8> {
    let column = ints(["a"]).expect("a name");
    let mut entry = column.as_bytes().to_vec();
    entry[..NAME_SIZE].fill(0);
    let letters = entry.iter_mut().take(NAME_SIZE).zip(name.bytes());
    letters.for_each(|(to, letter)| *to = letter);
    entry
}

/// What is wrong with a name.
fn wrong(name: &str) -> Option<ColumnError> {
    ints([name]).err()
}

#[test]
fn names() {
    for name in [
        "a",
        "z",
        "lot",
        "an",
        "ord",
        "nota",
        "starts",
        "startswiths",
    ] {
        assert_eq!(wrong(name), None, "{name}");
        assert!(Columns::from_bytes(&entry(name)).is_ok(), "{name}");
    }
    assert_eq!(wrong(&"a".repeat(NAME_SIZE)), None);
    assert_eq!(wrong(""), Some(ColumnError::NoName));
    let longer = "a".repeat(NAME_SIZE + 1);
    let expected = ColumnError::TooLong(longer.clone());
    assert_eq!(wrong(&longer), Some(expected));
    for word in ["and", "or", "not", "startswith"] {
        let expected = ColumnError::Reserved(word.to_string());
        assert_eq!(wrong(word), Some(expected));
    }
    for name in [
        "Lot", "loT", "lot1", "lot ", " lot", "l_t", "lot\0", "\0", "é", "`", "{",
    ] {
        let expected = ColumnError::NotLowerCase(name.to_string());
        assert_eq!(wrong(name), Some(expected));
    }
}

#[test]
fn the_library_refuses_the_same_names() {
    let names = [
        "",
        "and",
        "or",
        "not",
        "startswith",
        "Lot",
        "lot1",
        "l t",
        "é",
        "`",
        "{",
    ];
    for name in names {
        assert!(wrong(name).is_some());
        let refused = Columns::from_bytes(&entry(name));
        assert_eq!(refused, Err(Refusal::Malformed), "{name}");
    }
    // A letter behind the zeros.
    let mut parted = entry("lot");
    parted[NAME_SIZE - 1] = b'a';
    assert_eq!(Columns::from_bytes(&parted), Err(Refusal::Malformed));
}

#[test]
fn lists() {
    assert_eq!(ints([]), Err(ColumnError::NoColumn));
    let letters = ["a", "b", "c", "d", "e", "f", "g", "h", "i"];
    let (most, more) = (&letters[..COLUMNS_MAX], &letters[..=COLUMNS_MAX]);
    let list = ints(most.iter().copied()).expect("as many as a list has");
    assert_eq!(list.as_bytes().len(), COLUMN_SIZE * COLUMNS_MAX);
    let refused = ints(more.iter().copied());
    assert_eq!(refused, Err(ColumnError::TooMany(COLUMNS_MAX)));
    assert_eq!(
        ints(["a", "lot", "b", "lot"]),
        Err(ColumnError::Twice("lot".to_string()))
    );
    // A name and its beginning are two.
    assert!(ints(["lot", "lots", "lo"]).is_ok());
}

#[test]
fn the_words_of_what_is_wrong() {
    let words = [
        (ints([]), "a column list has one column or more"),
        (ints([""]), "a column has no name"),
        (
            ints(["Lot"]),
            "`Lot` is no name: it has more than letters a to z",
        ),
        (ints(["or"]), "`or` is no name: filters use the word"),
        (ints(["a", "a"]), "two columns have the name `a`"),
    ];
    for (list, expected) in words {
        assert_eq!(list.expect_err("wrong").to_string(), expected);
    }
    let long = "a".repeat(NAME_SIZE + 1);
    let expected = format!("`{long}` is no name: at most {NAME_SIZE} letters fit");
    assert_eq!(
        ints([long.as_str()]).expect_err("long").to_string(),
        expected
    );
    let many = ColumnError::TooMany(COLUMNS_MAX).to_string();
    assert_eq!(many, format!("more than {COLUMNS_MAX} columns"));
}

#[test]
fn lists_are_read_back() {
    for column_type in Type::ALL {
        for transform in TRANSFORMS {
            let columns = [
                ("lot", Type::String, Transform::Day),
                ("x", column_type, transform),
            ];
            let list = Columns::new(columns).expect("two columns");
            assert!(list.iter().eq(columns));
            assert_eq!(Columns::from_bytes(list.as_bytes()), Ok(list));
        }
    }
}

#[test]
fn the_bytes_of_an_entry() {
    let list = Columns::new([("lot", Type::String, Transform::Truncate(4))]).expect("a column");
    let mut bytes = [0; COLUMN_SIZE];
    bytes[..3].copy_from_slice(b"lot");
    bytes[NAME_SIZE..][4..9].copy_from_slice(&[9, 1, 0, 0, 4]);
    assert_eq!(list.as_bytes(), bytes);
}

#[test]
fn broken_lists() {
    let list = ints(["a", "b"]).expect("two names");
    let list = list.as_bytes();
    let spoilt = |at: usize, byte: u8| {
        let mut list = list.to_vec();
        list[at] = byte;
        list
    };
    let lists = [
        Vec::new(),
        list[..COLUMN_SIZE - 1].to_vec(),
        [list, &[0]].concat(),
        entry("a").repeat(2),
        spoilt(COLUMN_SIZE, b'a'),              // a name twice
        spoilt(NAME_SIZE, 1),                   // next
        spoilt(NAME_SIZE + 2, 201),             // operator
        spoilt(NAME_SIZE + 4, 0),               // type
        spoilt(NAME_SIZE + 5, 8),               // transform
        spoilt(COLUMN_SIZE + NAME_SIZE + 8, 1), // a width without Truncate
        spoilt(2 * COLUMN_SIZE - 1, 1),         // reserved
    ];
    for list in lists {
        assert_eq!(Columns::from_bytes(&list), Err(Refusal::Malformed));
    }
    // One more than there may be, each with a name of its own.
    let names = ["a", "b", "c", "d", "e", "f", "g", "h", "i"];
    let many: Vec<u8> = names.iter().flat_map(|name| entry(name)).collect();
    assert_eq!(Columns::from_bytes(&many), Err(Refusal::Malformed));
    assert!(Columns::from_bytes(&many[..COLUMN_SIZE * COLUMNS_MAX]).is_ok());
}
