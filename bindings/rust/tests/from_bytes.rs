//! Contents, rows and partition values are read back from their bytes, and others refused as the library refuses their records.

mod support;

use support::sample::Random;
use support::TRANSFORMS;
use weighpick::filter::COLUMNS_MAX;
use weighpick::sheet::{CONTENT_MAX, RECORD_SIZE};
use weighpick::{Columns, Literal, Partition, Refusal, Row, Transform, Type, Value};

/// How many column lists are tried.
const LISTS: usize = 2_000;

/// Where the length and the content of a record stand.
const LENGTH_AT: usize = 2;
const CONTENT_AT: usize = RECORD_SIZE - CONTENT_MAX;

/// The record of a content, which fits.
fn record(content: &[u8]) -> [u8; RECORD_SIZE] {
    let mut record = [0; RECORD_SIZE];
    record[LENGTH_AT] = content.len() as u8;
    record[CONTENT_AT..][..content.len()].copy_from_slice(content);
    record
}

#[test]
fn contents_are_refused_as_their_records_are() {
    let mut seen = [0; 3];
    for column_type in Type::ALL {
        for byte in [0, b'a', 0xc3, 0xff] {
            for length in 0..=CONTENT_MAX {
                let content = vec![byte; length];
                let read = Literal::from_content(column_type, &content);
                let by_record = Value::from_record(column_type, &record(&content));
                assert_eq!(read.clone().map(Value::from), by_record, "{content:?}");
                seen[match read {
                    Ok(_) => 0,
                    Err(Refusal::Malformed) => 1,
                    Err(_) => 2,
                }] += 1;
            }
            let longer = Literal::from_content(column_type, &[byte; CONTENT_MAX + 1]);
            assert_eq!(longer, Err(Refusal::Malformed), "{column_type}");
        }
    }
    assert!(seen.iter().all(|&count| count > 50), "{seen:?}");
}

#[test]
fn contents_are_read_back() {
    let mut random = Random::new(21);
    for column_type in Type::ALL {
        for _ in 0..500 {
            let literal = random.literal(column_type);
            let record = Value::from(literal.clone()).to_record(column_type);
            let record = record.expect("a value of its type");
            let content = &record[CONTENT_AT..][..usize::from(record[LENGTH_AT])];
            assert_eq!(Literal::from_content(column_type, content), Ok(literal));
        }
    }
}

/// Some columns, with the types of their rows and of their partition values.
fn some_columns(random: &mut Random) -> (Columns, Vec<Type>, Vec<Type>) {
    const NAMES: [&str; COLUMNS_MAX] = ["a", "b", "c", "d", "e", "f", "g", "h"];
    let count = 1 + random.below(COLUMNS_MAX);
    let columns: Vec<(&str, Type, Transform)> = NAMES[..count]
        .iter()
        .map(|name| (*name, random.pick(&Type::ALL), random.pick(&TRANSFORMS)))
        .collect();
    let rows = columns.iter().map(|(_, column_type, _)| *column_type);
    let partitions = columns
        .iter()
        .map(|(_, column_type, transform)| match transform {
            Transform::Unknown => Type::String,
            transform => transform.result_type(*column_type).unwrap_or(*column_type),
        });
    let (rows, partitions) = (rows.collect(), partitions.collect());
    (
        Columns::new(columns).expect("a column list"),
        rows,
        partitions,
    )
}

/// A value of each type, missing ones among them.
fn some_values(random: &mut Random, types: &[Type]) -> Vec<Value> {
    let value = |of: &Type| match random.below(4) {
        0 => Value::Missing,
        _ => random.literal(*of).into(),
    };
    types.iter().map(value).collect()
}

/// The same bytes, or with one of them changed, or with another length.
fn damaged(random: &mut Random, bytes: &[u8]) -> Vec<u8> {
    let mut bytes = bytes.to_vec();
    let at = RECORD_SIZE * random.below(bytes.len() / RECORD_SIZE);
    match random.below(8) {
        0 => bytes.truncate(random.below(bytes.len())),
        1 => bytes.extend(vec![0; random.pick(&[1, RECORD_SIZE])]),
        2 => bytes[at + LENGTH_AT] = random.below(9) as u8,
        _ => bytes[at + random.below(CONTENT_AT + 8)] = random.pick(&[0, 1, 0x7f, 0xff]),
    }
    bytes
}

/// What is expected of bytes, by what each record is by itself: 3 of any goes before 4.
fn by_records(types: &[Type], bytes: &[u8]) -> Result<Vec<u8>, Refusal> {
    let records = bytes.chunks(RECORD_SIZE);
    if bytes.len() != RECORD_SIZE * types.len() {
        return Err(Refusal::Malformed);
    }
    let refusals = records.zip(types);
    let refusals = refusals.filter_map(|(record, of)| Value::from_record(*of, record).err());
    let first = refusals.min_by_key(|refusal| refusal.number());
    first.map_or(Ok(bytes.to_vec()), Err)
}

#[test]
fn rows_and_partition_values() {
    let mut random = Random::new(22);
    let mut seen = [0; 3];
    for _ in 0..LISTS {
        let (columns, row_types, partition_types) = some_columns(&mut random);
        let row = columns.row(&some_values(&mut random, &row_types));
        let row = row.expect("a value a column");
        assert_eq!(Row::from_bytes(&columns, row.as_bytes()).as_ref(), Ok(&row));
        let file = columns.partition(&some_values(&mut random, &partition_types));
        let file = file.expect("a value a column");
        let read = Partition::from_bytes(&columns, file.as_bytes());
        assert_eq!(read.as_ref(), Ok(&file));

        let bytes = damaged(&mut random, row.as_bytes());
        let read = Row::from_bytes(&columns, &bytes).map(|row| row.as_bytes().to_vec());
        let expected = by_records(&row_types, &bytes);
        assert_eq!(read, expected, "{columns:?} {bytes:?}");
        let bytes = damaged(&mut random, file.as_bytes());
        let read = Partition::from_bytes(&columns, &bytes).map(|file| file.as_bytes().to_vec());
        let of_file = by_records(&partition_types, &bytes);
        assert_eq!(read, of_file, "{columns:?} {bytes:?}");
        for result in [expected, of_file] {
            seen[match result {
                Ok(_) => 0,
                Err(Refusal::Malformed) => 1,
                Err(_) => 2,
            }] += 1;
        }
    }
    assert!(seen.iter().all(|&count| count > 30), "{seen:?}");
}
