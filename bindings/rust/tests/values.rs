//! The values beside a column list: their count and their types, and that the library asks for the same.

mod support;

use support::sample::Random;
use support::TRANSFORMS;
use weighpick::filter::{filter_project, filter_row};
use weighpick::sheet::{Record, CONTENT_MAX, RECORD_SIZE};
use weighpick::{
    Columns, Filter, Literal, Pick, Refusal, RowError, Transform, Type, Value, ValueError,
};

/// No filter: it is refused, but after a list and values that are none.
const NO_FILTER: &[u8] = b"?";

/// A routine of filters over bytes.
type Routine = fn(&[u8], &[u8], &[u8]) -> Result<bool, Refusal>;

/// Two columns whose partition values have another type than their rows, and one without a result type.
fn three() -> Columns {
    let columns = Columns::new([
        ("day", Type::Date, Transform::Month),
        ("at", Type::TimestampNs, Transform::Day),
        ("clock", Type::Time, Transform::Year),
    ]);
    columns.expect("three columns")
}

#[test]
fn values_of_the_wrong_count() {
    let columns = three();
    for count in 0..6 {
        let values = vec![Value::Missing; count];
        let expected = match count {
            3 => None,
            found => Some(RowError::WrongCount { expected: 3, found }),
        };
        assert_eq!(columns.row(&values).err(), expected);
        assert_eq!(columns.partition(&values).err(), expected);
    }
}

#[test]
fn values_of_the_wrong_type() {
    let columns = three();
    let present = |types: [Type; 3]| types.map(|ty| Value::from(Random::new(7).literal(ty)));
    let row = [Type::Date, Type::TimestampNs, Type::Time];
    let partition = [Type::Int, Type::Date, Type::Time];
    for (place, name) in ["day", "at", "clock"].into_iter().enumerate() {
        for other in Type::ALL {
            let error = |asked: Type| {
                let wrong = ValueError::WrongType(asked, other);
                (asked != other).then(|| RowError::Value(name.to_string(), wrong))
            };
            let with = |mut types: [Type; 3]| {
                types[place] = other;
                present(types)
            };
            assert_eq!(columns.row(&with(row)).err(), error(row[place]));
            let refused = columns.partition(&with(partition)).err();
            assert_eq!(refused, error(partition[place]));
        }
    }
    let refused = columns.row(&present(partition)).map_err(|e| e.to_string());
    let words = "`day`: a value of type int for a column of type date";
    assert_eq!(refused, Err(words.to_string()));
}

#[test]
fn values_that_are_too_long() {
    let columns = Columns::new([("lot", Type::String, Transform::Identity)]).expect("a column");
    let row = |length| columns.row(&[Value::from("a".repeat(length).as_str())]);
    assert!(row(CONTENT_MAX).is_ok());
    let expected = RowError::Value("lot".to_string(), ValueError::TooLong(CONTENT_MAX + 1));
    assert_eq!(row(CONTENT_MAX + 1), Err(expected));
}

/// A value of a type; a binary is not UTF-8, and it and a string are longer than a number.
fn of_type(value_type: Type) -> Value {
    match value_type {
        Type::String => Value::from("a".repeat(CONTENT_MAX).as_str()),
        Type::Binary => Literal::binary([0xff; CONTENT_MAX]).into(),
        number => Random::new(13).literal(number).into(),
    }
}

/// What the library says of a value record where one of a type is asked for, with no filter. It goes by the bytes: lengths of
/// numbers, and UTF-8.
fn by_its_bytes(asked: Type, record: &Record) -> Refusal {
    let length = |record: &Record| usize::from(record[2]);
    let content = &record[RECORD_SIZE - CONTENT_MAX..][..length(record)];
    let one = of_type(asked)
        .to_record(asked)
        .expect("a value of its type");
    match asked {
        Type::String if std::str::from_utf8(content).is_err() => Refusal::NotUtf8,
        Type::String | Type::Binary => Refusal::OutsideGrammar,
        _ if length(record) == length(&one) => Refusal::OutsideGrammar,
        _ => Refusal::Malformed,
    }
}

#[test]
fn the_library_asks_for_values_of_the_same_types() {
    for column_type in Type::ALL {
        for transform in TRANSFORMS {
            let list = Columns::new([("x", column_type, transform)]).expect("a column");
            let row = |ty: &Type| list.row(&[of_type(*ty)]).is_ok();
            let partition = |ty: &Type| list.partition(&[of_type(*ty)]).is_ok();
            let rows: Vec<Type> = Type::ALL.into_iter().filter(row).collect();
            let partitions: Vec<Type> = Type::ALL.into_iter().filter(partition).collect();
            let sides = [(rows, filter_row as Routine), (partitions, filter_project)];
            for (taken, routine) in sides {
                let [taken] = taken[..] else {
                    panic!("{transform} of {column_type}: {taken:?}");
                };
                for other in Type::ALL {
                    let value = of_type(other);
                    let record = value.to_record(other).expect("a value of its type");
                    let refused = routine(list.as_bytes(), NO_FILTER, &record);
                    let expected = by_its_bytes(taken, &record);
                    let words = format!("{value} for {transform} of {column_type}");
                    assert_eq!(refused, Err(expected), "{words}");
                }
            }
        }
    }
}

#[test]
fn a_row_of_other_columns_is_malformed() {
    let of =
        |column_type| Columns::new([("x", column_type, Transform::Identity)]).expect("a column");
    let (ints, dates) = (of(Type::Int), of(Type::Date));
    let filter = Filter::new(&ints, "x < 1");
    let values = [Value::from(Literal::Date(0))];
    let (row, partition) = (dates.row(&values), dates.partition(&values));
    let (row, partition) = (row.expect("a Date"), partition.expect("a Date"));
    assert_eq!(filter.row(&row), Err(Refusal::Malformed));
    assert_eq!(filter.project(&partition), Err(Refusal::Malformed));
    assert_eq!(filter.strict_project(&partition), Err(Refusal::Malformed));
    // Nothing is known of the file, so it is read.
    assert_eq!(filter.pick(&partition), Pick::Read);
    // A row of an equal list is one of this.
    assert_eq!(Filter::new(&of(Type::Date), "x < 1").row(&row), Ok(true));
}

#[test]
fn what_is_built_is_shown() {
    let columns = Columns::new([("lot", Type::String, Transform::Truncate(4))]).expect("a column");
    assert_eq!(format!("{columns:?}"), r#"[("lot", String, Truncate(4))]"#);
    let row = columns.row(&["ab".into()]).expect("a String");
    assert_eq!(format!("{row:?}"), r#"Row([Present(String("ab"))])"#);
    let partition = columns.partition(&[Value::Missing]).expect("missing");
    assert_eq!(format!("{partition:?}"), "Partition([Missing])");
    let filter = Filter::new(&columns, b"lot='\xff'");
    let expected = r#"Filter { columns: [("lot", String, Truncate(4))], text: "lot=\'\xff\'" }"#;
    assert_eq!(format!("{filter:?}"), expected);
    assert_eq!(
        (filter.columns(), filter.text()),
        (&columns, &b"lot='\xff'"[..])
    );
}
