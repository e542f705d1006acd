//! Leaves and rows from a seed: numbers around the places where answers change, strings of code points of every size.

use weighpick::{Leaf, Literal, PredicateOperator, Transform, Type, Value};

use super::{number, number_of, TRANSFORMS};

/// A small generator of numbers (SplitMix64).
pub struct Random(u64);

const MICROS_PER_DAY: i64 = 86_400_000_000;
const NANOS_PER_DAY: i64 = 1000 * MICROS_PER_DAY;

/// Numbers near which a transform, a type or the calendar has an edge.
const ANCHORS: [i64; 19] = [
    0,
    31,
    -31,
    365,
    i32::MIN as i64,
    i32::MAX as i64,
    i64::MIN,
    i64::MAX,
    -96_465_292, // the calendar's first day
    95_026_236,  // and its last
    MICROS_PER_DAY,
    -MICROS_PER_DAY,
    -2 * MICROS_PER_DAY,
    NANOS_PER_DAY,
    -NANOS_PER_DAY,
    -2 * NANOS_PER_DAY,
    7_730_941_132_800_000_000,  // hours beyond 32 bits
    8_210_266_876_800_000_000,  // microseconds past the calendar
    -8_334_601_228_800_000_000, // the first in it
];

/// Code points of one to four bytes.
const LETTERS: [char; 5] = ['a', 'b', 'é', '€', '𝄞'];

/// The most letters of a string, and bytes of a binary, that are made here.
const LONGEST: usize = 6;

impl Random {
    pub fn new(seed: u64) -> Random {
        Random(seed)
    }

    fn draw(&mut self) -> u64 {
        self.0 = self.0.wrapping_add(0x9e37_79b9_7f4a_7c15);
        let z = (self.0 ^ (self.0 >> 30)).wrapping_mul(0xbf58_476d_1ce4_e5b9);
        let z = (z ^ (z >> 27)).wrapping_mul(0x94d0_49bb_1331_11eb);
        z ^ (z >> 31)
    }

    /// A number below n.
    pub fn below(&mut self, n: usize) -> usize {
        (self.draw() % n as u64) as usize
    }

    pub fn pick<T: Copy>(&mut self, all: &[T]) -> T {
        all[self.below(all.len())]
    }

    /// One of the anchors or a number close to one; of Int and Date, one that fits.
    fn anchored(&mut self, column_type: Type) -> Literal {
        loop {
            let near = self.below(9) as i64 - 4;
            let v = self.pick(&ANCHORS).saturating_add(near);
            if let Some(literal) = number(column_type, v) {
                return literal;
            }
        }
    }

    pub fn literal(&mut self, column_type: Type) -> Literal {
        match column_type {
            Type::String => {
                let n = self.below(LONGEST + 1);
                Literal::String((0..n).map(|_| self.pick(&LETTERS)).collect())
            }
            Type::Binary => {
                let n = self.below(LONGEST + 1);
                Literal::Binary((0..n).map(|_| self.pick(&[0, 1, 0x7f, 0xff])).collect())
            }
            _ => self.anchored(column_type),
        }
    }

    /// A leaf of any operator, type and transform.
    pub fn leaf(&mut self) -> Leaf {
        let operator = self.pick(&PredicateOperator::ALL);
        let column_type = self.pick(&Type::ALL);
        let transform = self.pick(&TRANSFORMS);
        self.leaf_of(operator, column_type, transform)
    }

    /// A leaf with random literals.
    pub fn leaf_of(
        &mut self,
        operator: PredicateOperator,
        column_type: Type,
        transform: Transform,
    ) -> Leaf {
        let leaf = if operator.is_unary() {
            Leaf::unary(operator, column_type, transform)
        } else if operator.is_binary() {
            Leaf::binary(operator, transform, &self.literal(column_type))
        } else {
            let n = self.below(5);
            let set: Vec<Literal> = (0..n).map(|_| self.literal(column_type)).collect();
            Leaf::set(operator, column_type, transform, &set)
        };
        leaf.expect("within the limits")
    }

    /// Rows for a leaf: a missing one, some of any kind, and its literals with what lies close to them.
    pub fn rows(&mut self, leaf: &Leaf) -> Vec<Value> {
        let mut rows = vec![Value::Missing];
        rows.extend((0..3).map(|_| self.literal(leaf.column_type()).into()));
        for literal in leaf.literals() {
            rows.extend((0..4).map(|_| self.close_to(&literal).into()));
            rows.push(literal.into());
        }
        rows
    }

    /// The values of a small file, missing ones among them.
    pub fn file(&mut self, column_type: Type) -> Vec<Value> {
        let n = self.below(4);
        let mut value = |_| match self.below(4) {
            0 => Value::Missing,
            _ => self.literal(column_type).into(),
        };
        (0..n).map(&mut value).collect()
    }

    /// A literal close to another: a few off, or with another end.
    fn close_to(&mut self, literal: &Literal) -> Literal {
        let near = self.below(25) as i64 - 12;
        match literal {
            Literal::String(text) => {
                let kept = text.chars().take(self.below(LONGEST));
                Literal::String(kept.chain([self.pick(&LETTERS)]).collect())
            }
            Literal::Binary(bytes) => {
                let kept = bytes.iter().copied().take(self.below(LONGEST));
                Literal::Binary(kept.chain([self.pick(&[0, 1, 0xff])]).collect())
            }
            _ => number_of(literal)
                .and_then(|v| number(literal.column_type(), v.saturating_add(near)))
                .unwrap_or_else(|| literal.clone()),
        }
    }
}
