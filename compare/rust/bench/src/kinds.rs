//! The leaves and values that are timed, kind by kind. Moments lie between 1970 and 2030 and strings are ASCII, where
//! crate and port agree (docs/DIFFERENCES.md); they are drawn from a fixed seed, so every run has the same.

use beside::draw::Draw;
use beside::leaf::{LITERALS, Leaf, Question, column, operator, transform};

use crate::files::{self, Pools, Verdicts};
use crate::older::{self, Leaves};

/// Leaves of a kind: several, so that no branch is learned from one literal alone.
pub const LEAVES: usize = 16;
/// Sets of a kind: few enough for the nearest cache.
pub const SETS: usize = 4;
/// The width for numbers, and for strings: the start of a lot code.
const NUMBER_WIDTH: u32 = 10;
const STRING_WIDTH: u32 = 4;

/// What a row of the tables is about.
pub enum Kind {
    Projection(Projections),
    /// The strict projection and the third question, of leaves that the crate is not asked.
    Older(Leaves),
    Transform(Values),
    /// The holds-test by the inclusive predicates of leaves.
    Holds(Projections),
    /// The test of summaries.
    Verdict(Verdicts),
    /// The pooling of summaries.
    Pool(Pools),
}

impl Kind {
    pub fn name(&self) -> &str {
        match self {
            Kind::Projection(kind) | Kind::Holds(kind) => &kind.name,
            Kind::Older(kind) => &kind.name,
            Kind::Transform(kind) => &kind.name,
            Kind::Verdict(kind) => &kind.name,
            Kind::Pool(kind) => &kind.name,
        }
    }

    pub fn asked(&self) -> &'static str {
        match self {
            Kind::Projection(kind) if kind.question == Question::Inclusive => "inclusive",
            Kind::Projection(_) => "strict",
            Kind::Older(kind) if kind.asked == older::Asked::Strict => "strict",
            Kind::Older(_) => "older",
            Kind::Transform(_) => "transform",
            Kind::Holds(_) => "holds",
            Kind::Verdict(_) => "verdict",
            Kind::Pool(_) => "pool",
        }
    }
}

/// Leaves of one kind, all asked one question, and a row for each whose partition value is tested.
#[derive(Clone)]
pub struct Projections {
    pub name: String,
    pub question: Question,
    pub leaves: Vec<Leaf>,
    pub contents: Vec<Vec<u8>>,
}

/// Values of one kind under one transform.
pub struct Values {
    pub name: String,
    pub column: u8,
    pub transform: u8,
    pub width: u32,
    pub contents: Vec<Vec<u8>>,
}

/// What is common to the leaves of a kind.
#[derive(Clone, Copy)]
pub struct Setting {
    pub text: &'static str,
    pub column: u8,
    pub transform: u8,
    pub width: u32,
    pub content: fn(&mut Draw) -> Vec<u8>,
}

pub const INT: Setting = Setting {
    text: "Int, Truncate 10",
    column: column::INT,
    transform: transform::TRUNCATE,
    width: NUMBER_WIDTH,
    content: Draw::int,
};
const LONG: Setting = Setting { text: "Long, Truncate 10", column: column::LONG, content: Draw::long, ..INT };
pub const DATE_MONTH: Setting =
    Setting { text: "Date, Month", column: column::DATE, transform: transform::MONTH, width: 0, content: Draw::date };
pub const MOMENT_DAY: Setting = Setting {
    text: "Timestamp, Day",
    column: column::TIMESTAMP,
    transform: transform::DAY,
    width: 0,
    content: Draw::moment,
};
const MOMENT_YEAR: Setting = Setting { text: "Timestamp, Year", transform: transform::YEAR, ..MOMENT_DAY };
const MOMENT_MONTH: Setting = Setting { text: "Timestamp, Month", transform: transform::MONTH, ..MOMENT_DAY };
const MOMENT_HOUR: Setting = Setting { text: "Timestamp, Hour", transform: transform::HOUR, ..MOMENT_DAY };
const STRING: Setting = Setting {
    text: "String, Truncate 4",
    column: column::STRING,
    transform: transform::TRUNCATE,
    width: STRING_WIDTH,
    content: Draw::lot_code,
};
const SHORT_STRING: Setting = Setting { text: "String, Truncate 4, shorter", content: Draw::short_start, ..STRING };
const INT_ITSELF: Setting = Setting { text: "Int, Identity", transform: transform::IDENTITY, width: 0, ..INT };
const STRING_ITSELF: Setting = Setting { text: "String, Identity", transform: transform::IDENTITY, width: 0, ..STRING };

/// All kinds, in the order of the tables.
pub fn all() -> Vec<Kind> {
    let projections = projections();
    let inclusive = projections.iter().filter(|kind| kind.question == Question::Inclusive);
    let tested: Vec<Projections> = inclusive.cloned().collect();
    let mut kinds: Vec<Kind> = projections.into_iter().map(Kind::Projection).collect();
    kinds.extend(older::kinds().into_iter().map(Kind::Older));
    kinds.extend(transforms().into_iter().map(Kind::Transform));
    kinds.extend(tested.into_iter().map(Kind::Holds));
    kinds.extend(files::verdicts().into_iter().map(Kind::Verdict));
    kinds.extend(files::pools().into_iter().map(Kind::Pool));
    kinds
}

fn projections() -> Vec<Projections> {
    use Question::{Inclusive, Strict};
    let [full_in, full_not_in] = ["In", "NotIn"].map(|word| format!("{word}, {LITERALS}"));
    let mut kinds = vec![];
    let mut put = |setting, operator: (&str, u16), questions: &[Question]| {
        kinds.extend(questions.iter().map(|question| projection(setting, operator, *question)));
    };
    put(MOMENT_DAY, ("IsNull", operator::IS_NULL), &[Inclusive, Strict]);
    for setting in [INT, LONG, DATE_MONTH, MOMENT_DAY, MOMENT_YEAR, MOMENT_MONTH, MOMENT_HOUR] {
        put(setting, ("<", operator::LESS), &[Inclusive, Strict]);
    }
    put(STRING, ("StartsWith", operator::STARTS_WITH), &[Inclusive]);
    put(SHORT_STRING, ("StartsWith", operator::STARTS_WITH), &[Inclusive, Strict]);
    put(STRING, ("Eq", operator::EQ), &[Inclusive]);
    put(STRING, ("NotEq", operator::NOT_EQ), &[Strict]);
    for setting in [INT_ITSELF, STRING_ITSELF] {
        put(setting, ("Eq", operator::EQ), &[Inclusive, Strict]);
    }
    for setting in [INT, MOMENT_DAY, STRING] {
        put(setting, (&full_in, operator::IN), &[Inclusive]);
        put(setting, (&full_not_in, operator::NOT_IN), &[Strict]);
    }
    kinds
}

fn transforms() -> Vec<Values> {
    [INT, MOMENT_DAY, MOMENT_YEAR, MOMENT_MONTH, STRING].map(values).into()
}

fn projection(setting: Setting, (word, operator): (&str, u16), question: Question) -> Projections {
    let mut draw = Draw::new();
    let name = format!("{}: {word}", setting.text);
    let leaves = leaves(setting, operator, &mut draw);
    let contents = leaves.iter().map(|_| (setting.content)(&mut draw)).collect();
    Projections { name, question, leaves, contents }
}

/// The leaves of a kind: sets are full.
pub fn leaves(setting: Setting, operator: u16, draw: &mut Draw) -> Vec<Leaf> {
    let (leaves, literals) = match operator {
        operator::IN | operator::NOT_IN => (SETS, LITERALS),
        operator::IS_NULL => (LEAVES, 0),
        _ => (LEAVES, 1),
    };
    let leaf = |_| Leaf {
        operator,
        column: setting.column,
        transform: setting.transform,
        width: setting.width,
        literals: (0..literals).map(|_| (setting.content)(draw)).collect(),
    };
    (0..leaves).map(leaf).collect()
}

fn values(setting: Setting) -> Values {
    let mut draw = Draw::new();
    Values {
        name: setting.text.to_string(),
        column: setting.column,
        transform: setting.transform,
        width: setting.width,
        contents: (0..LEAVES).map(|_| (setting.content)(&mut draw)).collect(),
    }
}
