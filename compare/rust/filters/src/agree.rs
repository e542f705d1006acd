//! The plain parser and the port asked the same, before anything is timed: texts that document 02's sentences turn on,
//! leaves over Binaries, drawn filters and damaged copies of those, each with several rows; and column lists and values
//! that are broken.

use std::collections::BTreeMap;

use sheets::draw::Draw;
use sheets::filter::{Asked, COLUMNS, Column, ENTRY, NAME, column_list};
use sheets::leaf::{RECORD, Value, column, number, transform};
use sheets::port;
use sheets::sheet::{COLUMN, TRANSFORM};

use crate::texts::{drawn, listed, of_binaries};
use crate::writer::{EXAMPLE, GRAMS, LOT, int, long, records, string};

const ASKED: [Asked; 3] = [Asked::Row, Asked::Inclusive, Asked::Strict];

/// Columns that a leaf is refused for, and others that no step is needed for.
const REFUSED: [Column; COLUMNS] = [
    Column { name: "a", column: column::INT, transform: transform::TRUNCATE, width: 0 },
    Column { name: "b", column: column::INT, transform: transform::TRUNCATE, width: 1 << 31 },
    Column { name: "c", column: column::DATE, transform: transform::TRUNCATE, width: 10 },
    Column { name: "d", column: column::INT, transform: transform::UNKNOWN, width: 0 },
    Column { name: "e", column: column::STRING, transform: transform::VOID, width: 0 },
    Column { name: "f", column: column::LONG, transform: transform::TRUNCATE, width: 7 },
    Column { name: "g", column: column::STRING, transform: transform::TRUNCATE, width: 0 },
    Column { name: "h", column: column::LONG, transform: transform::IDENTITY, width: 0 },
];

/// Binaries, cut before, at and behind the ends of literals, and uncut.
const BINARIES: [Column; 6] = [
    Column { name: "p", column: column::BINARY, transform: transform::TRUNCATE, width: 0 },
    Column { name: "q", column: column::BINARY, transform: transform::TRUNCATE, width: 1 },
    Column { name: "r", column: column::BINARY, transform: transform::TRUNCATE, width: 2 },
    Column { name: "s", column: column::BINARY, transform: transform::TRUNCATE, width: 4 },
    Column { name: "t", column: column::BINARY, transform: transform::TRUNCATE, width: u32::MAX },
    Column { name: "u", column: column::BINARY, transform: transform::IDENTITY, width: 0 },
];

/// The other types, of rows alone: the plain parser has no steps for their transforms.
const OTHERS: [Column; COLUMNS - 1] = [
    Column { name: "i", column: column::DATE, transform: transform::MONTH, width: 0 },
    Column { name: "j", column: column::TIME, transform: transform::IDENTITY, width: 0 },
    Column { name: "k", column: column::TIMESTAMP, transform: transform::DAY, width: 0 },
    Column { name: "l", column: column::TIMESTAMPTZ, transform: transform::YEAR, width: 0 },
    Column { name: "m", column: column::TIMESTAMP_NS, transform: transform::HOUR, width: 0 },
    Column { name: "n", column: column::TIMESTAMPTZ_NS, transform: transform::DAY, width: 0 },
    Column { name: "abcdefghijklmnop", column: column::BINARY, transform: transform::IDENTITY, width: 0 },
];

/// Ends the program at the first answer of the two that differs. How many there were goes to standard error.
pub fn compare_answers() {
    let mut compared = Compared(BTreeMap::new());
    let example = column_list(&[LOT, GRAMS]);
    let mut draw = Draw::new();
    for text in listed().into_iter().chain(drawn(&mut draw, &[LOT, GRAMS])) {
        for (lot, grams) in [("ab12", 310), ("ab", 500), ("abcd", i32::MIN), ("aé", i32::MAX), ("", -10)] {
            compared.ask(&ASKED, &example, &text, &records(&[string(lot), int(grams)]));
        }
        compared.ask(&ASKED, &example, &text, &records(&[Value::Missing, Value::Missing]));
    }
    let texts = [string("ab"), string("abc"), Value::Missing];
    for text in drawn(&mut draw, &REFUSED) {
        let [e, g] = [0, 1].map(|_| texts[draw.below(3) as usize].clone());
        let numbers = [int(300), int(-7), int(12)];
        // a row has an Int in `d`, and partition values a String, since the transform is Unknown
        for d in [int(5), string("ab"), Value::Missing] {
            let values = [&numbers[..], &[d, e.clone(), long(i64::MIN), g.clone(), long(7)]].concat();
            compared.ask(&ASKED, &column_list(&REFUSED), &text, &records(&values));
        }
    }
    for text in drawn(&mut draw, &OTHERS) {
        let mut values: Vec<Value> = (0..6).map(|_| Value::Present(draw.moment())).collect();
        values[0] = Value::Present(draw.date());
        values.push(string("abcd"));
        compared.ask(&[Asked::Row], &column_list(&OTHERS), &text, &records(&values));
        compared.ask(&[Asked::Row], &column_list(&OTHERS), &text, &records(&vec![Value::Missing; OTHERS.len()]));
    }
    binaries(&mut compared, &mut draw);
    broken(&mut compared, &mut draw);
    compared.report();
}

/// Leaves over Binaries, and filters of several.
fn binaries(compared: &mut Compared, draw: &mut Draw) {
    let list = column_list(&BINARIES);
    for text in of_binaries(&BINARIES).into_iter().chain(drawn(draw, &BINARIES)) {
        for content in [&b""[..], b"a", b"ab", b"abcd", b"b", b"\xc3", b"\xc3\xa9", b"\xff\0"] {
            let values = vec![Value::Present(content.to_vec()); BINARIES.len()];
            compared.ask(&ASKED, &list, &text, &records(&values));
        }
        compared.ask(&ASKED, &list, &text, &records(&vec![Value::Missing; BINARIES.len()]));
    }
}

/// Column lists and values with one byte changed, or of other lengths.
fn broken(compared: &mut Compared, draw: &mut Draw) {
    let list = column_list(&[LOT, GRAMS]);
    let values = records(&[string("ab12"), int(310)]);
    let text = EXAMPLE.as_bytes();
    for at in 0..list.len() {
        let mut list = list.clone();
        list[at] = draw.one_of(&[0, 1, 6, 10, b'a', b'z', b'A', 0xff]);
        // the plain parser has not the steps of every type and transform
        let in_entry = at % ENTRY;
        let asked = if [NAME + COLUMN, NAME + TRANSFORM].contains(&in_entry) { &ASKED[..1] } else { &ASKED };
        compared.ask(asked, &list, text, &values);
    }
    for at in 0..values.len() {
        let mut values = values.clone();
        values[at] = draw.one_of(&[0, 1, 3, 4, b'a', 0xc3, 0xff]);
        compared.ask(&ASKED, &list, text, &values);
    }
    for length in 0..=list.len() {
        compared.ask(&ASKED, &list[..length], text, &values);
    }
    for length in 0..=values.len() {
        compared.ask(&ASKED, &list, text, &values[..length]);
    }
    for name in ["and", "or", "not", "startswith", "grams", "", "lots"] {
        let columns = [Column { name, ..LOT }, GRAMS];
        compared.ask(&ASKED, &column_list(&columns), b"grams < 300", &values);
    }
    let many = vec![0; (COLUMNS + 1) * ENTRY];
    compared.ask(&ASKED, &many, text, &[0; (COLUMNS + 1) * RECORD]);
    // that one value is malformed comes before that another is not UTF-8
    let mut both = records(&[Value::Present(vec![0xff]), int(310)]);
    compared.ask(&ASKED, &list, b"?", &both);
    both[2 * RECORD - 1] = 1;
    compared.ask(&ASKED, &list, b"?", &both);
}

/// How many answers of each number were compared.
struct Compared(BTreeMap<u32, usize>);

impl Compared {
    fn ask(&mut self, asked: &[Asked], columns: &[u8], text: &[u8], values: &[u8]) {
        for asked in asked {
            let number = port::filter(*asked, columns, text, values);
            let plain = plain::filter(*asked, columns, text, values);
            if number != plain {
                let text = String::from_utf8_lossy(text);
                panic!("{asked:?}: port {number}, plain {plain}\n{text}\ncolumns {columns:02x?}\nvalues {values:02x?}");
            }
            *self.0.entry(number).or_default() += 1;
        }
    }

    /// Every answer that there is has to be among those compared.
    fn report(&self) {
        let numbers: Vec<u32> = self.0.keys().copied().collect();
        let short = number::SHORT_BUFFER;
        let all: Vec<u32> = (number::WRITTEN..=number::TOO_LARGE).filter(|number| *number != short).collect();
        assert_eq!(numbers, all, "the numbers that were compared");
        let counts: Vec<String> = self.0.iter().map(|(number, count)| format!("{number}: {count}")).collect();
        let total: usize = self.0.values().sum();
        eprintln!("filters: {total} answers of plain Rust and port are the same ({})", counts.join(", "));
    }
}
