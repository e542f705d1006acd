//! Filters, rows and partition values as bytes, some of them drawn.

use sheets::draw::Draw;
use sheets::filter::{Asked, Column};
use sheets::leaf::{Value, column, transform};
use sheets::sheet::value_record;

/// The columns of document 02's example, and its text.
pub const LOT: Column = Column { name: "lot", column: column::STRING, transform: transform::TRUNCATE, width: 4 };
pub const GRAMS: Column = Column { name: "grams", column: column::INT, transform: transform::TRUNCATE, width: 10 };
pub const EXAMPLE: &str = "lot startswith 'ab' and not (grams < 300 or grams = 500)";

pub const SIGNS: [&str; 6] = ["<", "<=", ">", ">=", "=", "!="];

/// A lot and a weight, as a row has them.
pub struct Weighing {
    lot: String,
    grams: i32,
}

impl Weighing {
    /// Every other lot begins as the example asks for.
    pub fn draw(draw: &mut Draw) -> Weighing {
        let start = draw.one_of(&["ab", "ba"]);
        let lot = String::from_utf8(draw.lot_code()).expect("letters");
        Weighing { lot: format!("{start}{}", lot.to_lowercase()), grams: draw.below(1000) as i32 }
    }

    /// The value records of `LOT` and `GRAMS`: the row's, or its partition values.
    pub fn values(&self, asked: Asked) -> Vec<u8> {
        match asked {
            Asked::Row => records(&[string(&self.lot), int(self.grams)]),
            Asked::Inclusive | Asked::Strict => {
                let tens = self.grams - self.grams.rem_euclid(GRAMS.width as i32);
                records(&[string(&self.lot[..LOT.width as usize]), int(tens)])
            }
        }
    }
}

pub fn string(text: &str) -> Value {
    Value::Present(text.as_bytes().to_vec())
}

pub fn int(number: i32) -> Value {
    Value::Present(number.to_le_bytes().to_vec())
}

pub fn long(number: i64) -> Value {
    Value::Present(number.to_le_bytes().to_vec())
}

/// Values side by side.
pub fn records(values: &[Value]) -> Vec<u8> {
    values.iter().flat_map(value_record).collect()
}

/// A leaf of a column, on a number or on a text.
pub fn leaf(draw: &mut Draw, column: &Column) -> String {
    let is_text = matches!(column.column, column::STRING | column::BINARY);
    let operator = if draw.below(4) == 0 { "startswith" } else { draw.one_of(&SIGNS) };
    if is_text {
        let text = String::from_utf8(draw.lot_code()).expect("letters").to_lowercase();
        let length = draw.below(7) as usize;
        return format!("{} {operator} 'ab{}'", column.name, &text[..length]);
    }
    let minus = if draw.below(4) == 0 { "-" } else { "" };
    format!("{} {operator} {minus}{}", column.name, draw.below(1000))
}

/// A filter of so many leaves, joined by `and` and `or`, a few of them under `not` or in brackets.
pub fn filter(draw: &mut Draw, columns: &[Column], leaves: usize) -> String {
    let Some(right) = (leaves > 1).then(|| 1 + draw.below(leaves as u64 - 1) as usize) else {
        let column = draw.one_of(columns);
        let not = draw.one_of(&["", "", "", "not ", "not not "]);
        return not.to_string() + &leaf(draw, &column);
    };
    let (a, b) = (filter(draw, columns, leaves - right), filter(draw, columns, right));
    let word = draw.one_of(&["and", "or"]);
    match draw.below(6) {
        0 => format!("({a} {word} {b})"),
        1 => format!("not ({a}) {word} {b}"),
        2 => format!("{a} {word} not ({b})"),
        _ => format!("{a} {word} {b}"),
    }
}
