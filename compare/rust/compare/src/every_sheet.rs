//! Sheets and records as bytes, tried to the last one where there are few enough, after the leaves and values of
//! `every`: numbers in the head, damaged bytes, lengths, strings of any bytes, and the sheets of holds-tests.

use std::slice;

use beside::leaf::{ANSWER_LITERALS, LITERALS, RECORD, SHEET_BUFFER, VALUE_BUFFER, Value, column, operator, transform};
use beside::sheet::{sheet_of, value_record};

use crate::comparison::{Comparison, MOST_LENT};
use crate::every::{Part, UTF8_EDGES, edge_contents, leaf, transformed};
use crate::types;

/// The parts, in order.
pub const PARTS: [Part; 5] = [
    ("every operator, type and transform number", every_head),
    ("every byte of a sheet and a value damaged", every_byte),
    ("every length of sheets, values and buffers", every_length),
    ("short strings of every byte", every_byte_string),
    ("holds-tests of every operator and edge", every_test),
];

/// Every number in the head's three fields, one after the other, and all types with all transforms.
fn every_head(comparison: &mut Comparison) {
    let zero = types::content(column::INT, 0);
    for operator in 0..=u16::MAX {
        for literals in [&[], slice::from_ref(&zero)] {
            comparison.sheet(&sheet_of(&leaf(operator, column::INT, transform::IDENTITY, 0, literals)), SHEET_BUFFER);
        }
    }
    for (column, transform) in (0..=u8::MAX).flat_map(|column| (0..=u8::MAX).map(move |transform| (column, transform)))
    {
        for width in [0, 1] {
            comparison.sheet(&sheet_of(&leaf(operator::IS_NULL, column, transform, width, &[])), SHEET_BUFFER);
            transformed(comparison, column, transform, width, &Value::Missing);
            transformed(comparison, column, transform, width, &Value::Present(zero.clone()));
        }
    }
}

/// Sets of two literals, one of each kind of type.
fn pair_sheets() -> Vec<Vec<u8>> {
    let int = [-2, 300].map(|number| types::content(column::INT, number));
    let moments = [-1, 86_400_000_000].map(|moment| types::content(column::TIMESTAMP, moment));
    let texts = ["é", "ab"].map(|text| text.as_bytes().to_vec());
    vec![
        sheet_of(&leaf(operator::IN, column::INT, transform::TRUNCATE, 10, &int)),
        sheet_of(&leaf(operator::NOT_IN, column::TIMESTAMP, transform::DAY, 0, &moments)),
        sheet_of(&leaf(operator::IN, column::STRING, transform::TRUNCATE, 1, &texts)),
        sheet_of(&leaf(operator::NOT_IN, column::BINARY, transform::IDENTITY, 0, &texts)),
        sheet_of(&leaf(operator::NOT_IN, column::BINARY, transform::TRUNCATE, 1, &texts)),
        sheet_of(&leaf(operator::STARTS_WITH, column::STRING, transform::TRUNCATE, 2, &texts[..1])),
    ]
}

/// Each byte of some sheets and values, set to every number.
fn every_byte(comparison: &mut Comparison) {
    for sheet in pair_sheets() {
        let value = sheet[sheet.len() - RECORD..].to_vec();
        each_byte_changed(&sheet, |damaged| {
            comparison.sheet(damaged, SHEET_BUFFER);
            comparison.holds(damaged, &value);
        });
        each_byte_changed(&value, |damaged| {
            comparison.holds(&sheet, damaged);
            let (column, transform) = (sheet[4], sheet[5]);
            comparison.value(column, transform, u32::from(sheet[8]), damaged, VALUE_BUFFER);
        });
    }
}

fn each_byte_changed(bytes: &[u8], mut ask: impl FnMut(&[u8])) {
    let mut damaged = bytes.to_vec();
    for (at, byte) in (0..bytes.len()).flat_map(|at| (0..=u8::MAX).map(move |byte| (at, byte))) {
        damaged[at] = byte;
        ask(&damaged);
        damaged[at] = bytes[at];
    }
}

/// Sheets of every length around their limits, values of every length, and buffers of every length.
fn every_length(comparison: &mut Comparison) {
    let numbers: Vec<Vec<u8>> =
        (0..ANSWER_LITERALS as i64).map(|n| types::content(column::LONG, 1_000 - 7 * n)).collect();
    let full = sheet_of(&leaf(operator::IN, column::LONG, transform::TRUNCATE, 10, &numbers[..LITERALS]));
    let fullest = sheet_of(&leaf(operator::IN, column::LONG, transform::TRUNCATE, 10, &numbers));
    let value = value_record(&Value::Present(numbers[0].clone()));
    every_cut(&full, |sheet| comparison.sheet(sheet, SHEET_BUFFER));
    every_cut(&fullest, |sheet| comparison.holds(sheet, &value));
    every_cut(&value, |value| comparison.value(column::LONG, transform::TRUNCATE, 10, value, VALUE_BUFFER));
    every_cut(&value, |value| comparison.holds(&full, value));
    for lent in 0..=MOST_LENT {
        comparison.sheet(&full, lent);
        comparison.sheet(&full[1..], lent);
        comparison.value(column::LONG, transform::TRUNCATE, 10, &value, lent);
        comparison.value(column::LONG, transform::YEAR, 1, &value, lent);
    }
}

/// All beginnings of some bytes with two records more behind them, the unchained records being zero.
fn every_cut(bytes: &[u8], mut ask: impl FnMut(&[u8])) {
    let mut longer = bytes.to_vec();
    longer.resize(bytes.len() + 2 * RECORD, 0);
    (0..=longer.len()).for_each(|length| ask(&longer[..length]));
}

/// Strings of one and two bytes, all of them; of three and four, those of bytes at UTF-8's edges.
fn every_byte_string(comparison: &mut Comparison) {
    let all: Vec<u8> = (0..=u8::MAX).collect();
    for (length, alphabet) in [(1, &all[..]), (2, &all), (3, &UTF8_EDGES), (4, &UTF8_EDGES)] {
        let mut text = vec![alphabet[0]; length];
        for number in 0..alphabet.len().pow(length as u32) {
            let digit = |place: usize| number / alphabet.len().pow(place as u32) % alphabet.len();
            text.iter_mut().enumerate().for_each(|(place, byte)| *byte = alphabet[digit(place)]);
            let value = Value::Present(text.clone());
            transformed(comparison, column::STRING, transform::TRUNCATE, 1, &value);
            comparison.sheet(
                &sheet_of(&leaf(operator::STARTS_WITH, column::STRING, transform::TRUNCATE, 2, &[text.clone()])),
                SHEET_BUFFER,
            );
        }
    }
}

/// Every operator with a literal and a value from a type's edges.
fn every_test(comparison: &mut Comparison) {
    for column in column::ALL {
        let all = edge_contents(column);
        let contents: Vec<&Vec<u8>> = all.iter().step_by(1 + all.len() / 40).collect();
        for (literal, value) in contents.iter().flat_map(|literal| contents.iter().map(move |value| (*literal, *value)))
        {
            tests(comparison, column, literal, &Value::Present(value.clone()));
        }
        tests(comparison, column, contents[0], &Value::Missing);
    }
}

fn tests(comparison: &mut Comparison, column: u8, literal: &[u8], value: &Value) {
    let record = value_record(value);
    for operator in operator::ALL {
        let literals = if operator < operator::LESS { vec![] } else { vec![literal.to_vec()] };
        comparison.holds(&sheet_of(&leaf(operator, column, transform::IDENTITY, 0, &literals)), &record);
    }
}
