//! Filters from a seed, as trees of leaves, with their texts; and what they are answered, by what their leaves are.

use weighpick::{Columns, Leaf, Literal, PredicateOperator, Refusal, Transform, Type, Value};

use super::number_of;
use super::sample::Random;
use super::TRANSFORMS;

/// Names of every length.
const NAMES: [&str; 5] = ["a", "no", "lot", "grams", "abcdefghijklmnop"];

/// The operators of filters, with their signs.
const SIGNS: [(PredicateOperator, &str); 7] = [
    (PredicateOperator::LessThan, "<"),
    (PredicateOperator::LessThanOrEq, "<="),
    (PredicateOperator::GreaterThan, ">"),
    (PredicateOperator::GreaterThanOrEq, ">="),
    (PredicateOperator::Eq, "="),
    (PredicateOperator::NotEq, "!="),
    (PredicateOperator::StartsWith, "startswith"),
];

/// The most brackets in brackets that are made here.
const DEEPEST: usize = 3;

/// A name, a type and a transform.
type Column<'a> = (&'a str, Type, Transform);

/// A filter; a leaf has the place of its column.
pub enum Tree {
    Leaf(usize, Leaf),
    Not(Box<Tree>),
    And(Box<Tree>, Box<Tree>),
    Or(Box<Tree>, Box<Tree>),
}

impl Tree {
    /// What it is answered, by what each leaf is: `not` turns the leaves and swaps and with or, and the leftmost refusal counts.
    pub fn answer(
        &self,
        turned: bool,
        ask: &impl Fn(usize, &Leaf) -> Result<bool, Refusal>,
    ) -> Result<bool, Refusal> {
        match self {
            Tree::Leaf(place, leaf) if turned => ask(*place, &leaf.negate()),
            Tree::Leaf(place, leaf) => ask(*place, leaf),
            Tree::Not(inner) => inner.answer(!turned, ask),
            Tree::And(left, right) | Tree::Or(left, right) => {
                let (left, right) = (left.answer(turned, ask)?, right.answer(turned, ask)?);
                let is_and = matches!(self, Tree::And(..)) != turned;
                Ok(if is_and { left && right } else { left || right })
            }
        }
    }

    /// Its leaves, with the places of their columns.
    pub fn leaves(&self) -> Vec<(usize, &Leaf)> {
        match self {
            Tree::Leaf(place, leaf) => vec![(*place, leaf)],
            Tree::Not(inner) => inner.leaves(),
            Tree::And(left, right) | Tree::Or(left, right) => {
                [left.leaves(), right.leaves()].concat()
            }
        }
    }
}

/// A text as it grows, a token at a time.
#[derive(Default)]
struct Text(Vec<u8>);

impl Text {
    /// Adds a token. Spaces stand before it, or none unless two words would be one.
    fn push(&mut self, random: &mut Random, token: &[u8]) {
        let letter = |byte: Option<&u8>| byte.is_some_and(u8::is_ascii_lowercase);
        let needed = usize::from(letter(self.0.last()) && letter(token.first()));
        let spaces = needed + random.pick(&[0, 0, 1, 1, 2]);
        self.0.extend(vec![b' '; spaces]);
        self.0.extend_from_slice(token);
    }
}

/// Columns, and a filter over them with its text.
pub struct Sample {
    pub columns: Columns,
    pub tree: Tree,
    pub text: Vec<u8>,
}

impl Random {
    /// Columns of any type and transform, and a filter over them.
    pub fn filter(&mut self) -> Sample {
        let names = &NAMES[..1 + self.below(NAMES.len())];
        let columns: Vec<Column> = names
            .iter()
            .map(|name| (*name, self.pick(&Type::ALL), self.pick(&TRANSFORMS)))
            .collect();
        let mut text = Text::default();
        let tree = self.disjunction(&columns, DEEPEST, &mut text);
        text.push(self, b"");
        Sample {
            columns: Columns::new(columns).expect("names"),
            tree,
            text: text.0,
        }
    }

    fn disjunction(&mut self, columns: &[Column], deep: usize, text: &mut Text) -> Tree {
        let mut tree = self.conjunction(columns, deep, text);
        while self.below(3) == 0 {
            text.push(self, b"or");
            let right = self.conjunction(columns, deep, text);
            tree = Tree::Or(Box::new(tree), Box::new(right));
        }
        tree
    }

    fn conjunction(&mut self, columns: &[Column], deep: usize, text: &mut Text) -> Tree {
        let mut tree = self.part(columns, deep, text);
        while self.below(3) == 0 {
            text.push(self, b"and");
            let right = self.part(columns, deep, text);
            tree = Tree::And(Box::new(tree), Box::new(right));
        }
        tree
    }

    fn part(&mut self, columns: &[Column], deep: usize, text: &mut Text) -> Tree {
        match self.below(4) {
            0 => {
                text.push(self, b"not");
                Tree::Not(Box::new(self.part(columns, deep, text)))
            }
            1 if deep > 0 => {
                text.push(self, b"(");
                let tree = self.disjunction(columns, deep - 1, text);
                text.push(self, b")");
                tree
            }
            _ => self.one_leaf(columns, text),
        }
    }

    fn one_leaf(&mut self, columns: &[Column], text: &mut Text) -> Tree {
        let place = self.below(columns.len());
        let (name, column_type, transform) = columns[place];
        let (operator, sign) = self.pick(&SIGNS);
        let literal = self.literal(column_type);
        text.push(self, name.as_bytes());
        text.push(self, sign.as_bytes());
        let written = self.written(&literal);
        text.push(self, &written);
        let leaf = Leaf::binary(operator, transform, &literal).expect("a short literal");
        Tree::Leaf(place, leaf)
    }

    /// A literal as a filter has it: a number with zeros before it or none, or text in quotes.
    fn written(&mut self, literal: &Literal) -> Vec<u8> {
        let text = match literal {
            Literal::String(text) => text.as_bytes(),
            Literal::Binary(bytes) => bytes,
            number => {
                let number = number_of(number).expect("a number");
                let minus = number < 0 || number == 0 && self.below(2) == 0;
                let minus = if minus { "-" } else { "" };
                let zeros = "0".repeat(self.pick(&[0, 0, 0, 1, 30]));
                return format!("{minus}{zeros}{}", number.unsigned_abs()).into_bytes();
            }
        };
        [b"'", text, b"'"].concat()
    }

    /// A row for a filter: the value of a column that leaves name is one for such a leaf, any other is of any kind.
    pub fn row_for(&mut self, sample: &Sample) -> Vec<Value> {
        let leaves = sample.tree.leaves();
        let columns = sample.columns.iter().enumerate();
        let value = |(place, (_, column_type, _)): (usize, Column<'_>)| {
            let mut of_column = leaves.iter().filter(|(at, _)| *at == place);
            let count = of_column.clone().count();
            match of_column.nth(self.below(count.max(1))) {
                Some((_, leaf)) => {
                    let mut rows = self.rows(leaf);
                    rows.swap_remove(self.below(rows.len()))
                }
                None => self.literal(column_type).into(),
            }
        };
        columns.map(value).collect()
    }
}
