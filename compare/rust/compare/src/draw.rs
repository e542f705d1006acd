//! Random inputs from a seed: leaves, values, and the sheets that leaves are laid out on, dense at the edges.

use beside::leaf::{CONTENT, LITERALS, Leaf, RECORD, Value, column, operator, transform};
use beside::sheet::{sheet_chained, sheet_of};

use crate::edges;
use crate::rng::Rng;
use crate::types::{self, SECONDS_PER_DAY, SECONDS_PER_HOUR, is_number, per_second};

/// The most records off the chain that a sheet gets.
const SPARE_RECORDS: usize = 4;
/// How far from zero a small number may lie.
const SMALL: i64 = 1_000;
/// How many lots from zero a near lot may lie.
const NEAR: i64 = 50;

pub struct Draw {
    pub rng: Rng,
    /// The edges of each number type, at the type's number.
    edges: Vec<Vec<i64>>,
    code_points: Vec<char>,
}

/// What the transform of one value is asked.
pub struct Asked {
    pub column: u8,
    pub transform: u8,
    pub width: u32,
    pub value: Value,
}

impl Draw {
    pub fn new(seed: u64) -> Draw {
        let numbers = 0..=column::TIMESTAMPTZ_NS;
        let edges = numbers.map(|column| if column == 0 { Vec::new() } else { edges::numbers(column) }).collect();
        Draw { rng: Rng::new(seed), edges, code_points: edges::CODE_POINTS.to_vec() }
    }

    /// A leaf of any operator, type and transform, for a projection.
    pub fn leaf(&mut self) -> Leaf {
        let operator = self.rng.pick(&operator::ALL);
        let (column, transform) = self.pair();
        self.leaf_of(operator, column, transform, LITERALS)
    }

    /// A leaf of this operator, type and transform, with up to `most` literals if it is a set.
    pub fn leaf_of(&mut self, operator: u16, column: u8, transform: u8, most: usize) -> Leaf {
        let width = if transform == transform::TRUNCATE { self.width(column) } else { 0 };
        let mut leaf = Leaf { operator, column, transform, width, literals: Vec::new() };
        for _ in 0..self.count(operator, most) {
            let literal = self.literal(&leaf);
            leaf.literals.push(literal);
        }
        leaf
    }

    /// A question to the transform of one value.
    pub fn asked(&mut self) -> Asked {
        let (column, transform) = self.pair();
        let mut asked = self.asked_of(column, transform);
        if self.rng.one_in(32) {
            asked.value = Value::Missing;
        }
        asked
    }

    /// A question about a present value of this type under this transform.
    pub fn asked_of(&mut self, column: u8, transform: u8) -> Asked {
        let width = if transform == transform::TRUNCATE { self.width(column) } else { 0 };
        Asked { column, transform, width, value: Value::Present(self.content(column, transform, width)) }
    }

    /// A value to test a leaf with: one of its literals, one near, one that is missing, or any of the type.
    pub fn value_for(&mut self, leaf: &Leaf) -> Value {
        match self.rng.below(8) {
            0 => Value::Missing,
            1..=3 if !leaf.literals.is_empty() => {
                Value::Present(leaf.literals[self.rng.below(leaf.literals.len())].clone())
            }
            4..=6 => Value::Present(self.literal(leaf)),
            _ => Value::Present(self.content(leaf.column, leaf.transform, leaf.width)),
        }
    }

    /// The sheet of a leaf, half of the time with records off the chain, which hold anything.
    pub fn laid_out(&mut self, leaf: &Leaf, most: usize) -> Vec<u8> {
        let spare = if self.rng.one_in(2) { SPARE_RECORDS.min(most - leaf.literals.len()) } else { 0 };
        if spare == 0 {
            return sheet_of(leaf);
        }
        let mut on_chain: Vec<usize> = (1..=leaf.literals.len() + spare).collect();
        for _ in 0..spare {
            on_chain.remove(self.rng.below(on_chain.len()));
        }
        let mut sheet = sheet_chained(leaf, &on_chain);
        sheet.resize((1 + leaf.literals.len() + spare) * RECORD, 0);
        for record in (1..=leaf.literals.len() + spare).filter(|record| !on_chain.contains(record)) {
            sheet[record * RECORD..][..RECORD].fill_with(|| self.rng.byte());
        }
        sheet
    }

    /// A type and a transform; mostly a pair that has a result type.
    fn pair(&mut self) -> (u8, u8) {
        let column = self.rng.pick(&column::ALL);
        let transforms: &[u8] = match column {
            _ if self.rng.one_in(16) => &transform::ALL,
            column::INT | column::LONG | column::STRING | column::BINARY => &[transform::TRUNCATE, transform::IDENTITY],
            column::TIME => &[transform::IDENTITY, transform::VOID],
            column::DATE => &[transform::IDENTITY, transform::YEAR, transform::MONTH, transform::DAY],
            _ => &[transform::IDENTITY, transform::YEAR, transform::MONTH, transform::DAY, transform::HOUR],
        };
        (column, self.rng.pick(transforms))
    }

    fn width(&mut self, column: u8) -> u32 {
        match self.rng.below(8) {
            0..=2 => self.rng.pick(&edges::WIDTHS),
            3 => self.rng.word() as u32,
            _ if is_number(column) => self.rng.below(SMALL as usize) as u32,
            4 => self.rng.below(CONTENT + 2) as u32,
            _ => self.rng.below(8) as u32,
        }
    }

    /// How many literals: what the operator takes; of a set few, as many as may be, or any number between.
    fn count(&mut self, operator: u16, most: usize) -> usize {
        match operator {
            operator::IS_NULL..=operator::NOT_NAN => 0,
            operator::LESS..=operator::NOT_STARTS_WITH => 1,
            _ => match self.rng.below(16) {
                0 => most,
                1 => self.rng.below(most + 1),
                _ => self.rng.below(6),
            },
        }
    }

    /// A further literal of a leaf: one that it has, one near the last, or any.
    fn literal(&mut self, leaf: &Leaf) -> Vec<u8> {
        let Some(last) = leaf.literals.last() else {
            return self.content(leaf.column, leaf.transform, leaf.width);
        };
        match self.rng.below(4) {
            0 => leaf.literals[self.rng.below(leaf.literals.len())].clone(),
            1 | 2 if is_number(leaf.column) => {
                let lots = self.rng.between(-2, 2);
                let near = types::number(last).saturating_add(lots.saturating_mul(lot(
                    leaf.column,
                    leaf.transform,
                    leaf.width,
                )));
                self.near(leaf.column, near.into())
            }
            _ => self.content(leaf.column, leaf.transform, leaf.width),
        }
    }

    /// A content of this type, for a literal or a value.
    pub fn content(&mut self, column: u8, transform: u8, width: u32) -> Vec<u8> {
        match column {
            column::STRING => self.text(width),
            column::BINARY if self.rng.one_in(2) => self.bytes(width),
            column::BINARY => self.text(width),
            _ => self.number(column, transform, width),
        }
    }

    /// A number: an edge, one near the start of a lot (far or near zero), a small one, or any of the type.
    fn number(&mut self, column: u8, transform: u8, width: u32) -> Vec<u8> {
        let range = types::range(column);
        let lot = lot(column, transform, width);
        match self.rng.below(6) {
            0 => types::content(column, self.rng.pick(&self.edges[usize::from(column)])),
            1 => types::content(column, self.rng.between(*range.start(), *range.end())),
            2 => types::content(column, self.rng.between(-SMALL, SMALL)),
            3 => {
                let lots = self.rng.between(range.start() / lot, range.end() / lot);
                self.near(column, i128::from(lots) * i128::from(lot))
            }
            _ => {
                let lots = self.rng.between(-NEAR, NEAR);
                self.near(column, i128::from(lots) * i128::from(lot))
            }
        }
    }

    /// A number near the start of a lot, as far as the type allows; of a timestamp within about a second before.
    fn near(&mut self, column: u8, start: i128) -> Vec<u8> {
        let second = per_second(column).unwrap_or(1);
        let offset = match self.rng.below(4) {
            0 => self.rng.between(-second - 2, 2).into(),
            1 => self.rng.pick(&edges::offsets(column)),
            _ => self.rng.between(-3, 3).into(),
        };
        let range = types::range(column);
        let number = (start + offset).clamp((*range.start()).into(), (*range.end()).into());
        types::content(column, number as i64)
    }

    /// A string: its code points or its bytes are about as many as the width, or few, or any number that fits.
    fn text(&mut self, width: u32) -> Vec<u8> {
        let target = self.length(width);
        let by_bytes = self.rng.one_in(2);
        let alphabet = self.rng.below(4);
        let mut text = String::new();
        let mut code_points = 0;
        loop {
            let next = match alphabet {
                0 => self.rng.pick(&['a', 'b', 'c']),
                1 => char::from_u32(self.rng.below(0x11_0000) as u32).unwrap_or('é'),
                _ => self.rng.pick(&self.code_points),
            };
            let reached = if by_bytes { text.len() } else { code_points };
            if reached >= target || text.len() + next.len_utf8() > CONTENT {
                return text.into_bytes();
            }
            text.push(next);
            code_points += 1;
        }
    }

    fn bytes(&mut self, width: u32) -> Vec<u8> {
        let length = self.length(width).min(CONTENT);
        (0..length).map(|_| self.rng.byte()).collect()
    }

    fn length(&mut self, width: u32) -> usize {
        match self.rng.below(4) {
            0 => self.rng.below(4),
            1 => self.rng.below(CONTENT + 1),
            _ => ((width as usize).min(CONTENT) + self.rng.below(5)).saturating_sub(2),
        }
    }
}

/// How many numbers a lot of a transform has; of the longer ones a day, where each of them starts.
fn lot(column: u8, transform: u8, width: u32) -> i64 {
    match (per_second(column), transform) {
        (Some(second), transform::HOUR) => second * SECONDS_PER_HOUR,
        (Some(second), _) => second * SECONDS_PER_DAY,
        (None, transform::TRUNCATE) => i64::from(width).max(1),
        (None, _) => 1,
    }
}
