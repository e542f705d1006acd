//! The leaves that are asked strictly and by the third question, strict for older files, kind by kind. The crate has no such
//! question, and of moments before 1970, where the two differ, some of its strict answers are others (docs/DIFFERENCES.md).

use beside::draw::Draw;
use beside::leaf::{LITERALS, Leaf, operator, transform};

use crate::kinds::{DATE_MONTH, INT, MOMENT_DAY, Setting, leaves};

/// Which of the two is asked.
#[derive(Clone, Copy, PartialEq)]
pub enum Asked {
    Strict,
    Older,
}

/// Leaves of one kind, all asked one of the two questions.
#[derive(Clone)]
pub struct Leaves {
    pub name: String,
    pub asked: Asked,
    pub leaves: Vec<Leaf>,
    /// Whether the answers of the two differ.
    pub lifted: bool,
}

const EARLY_DATE_YEAR: Setting =
    Setting { text: "Date, Year", transform: transform::YEAR, content: Draw::early_date, ..DATE_MONTH };
const EARLY_DATE_MONTH: Setting = Setting { content: Draw::early_date, ..DATE_MONTH };
const EARLY_MOMENT_DAY: Setting = Setting { content: Draw::early_moment, ..MOMENT_DAY };

/// All kinds, each under both questions, in the order of the tables.
pub fn kinds() -> Vec<Leaves> {
    let set = format!("NotIn, {LITERALS}");
    let kinds = [
        kind(EARLY_DATE_YEAR, (">=", operator::GREATER_EQ), true),
        kind(EARLY_MOMENT_DAY, (">=", operator::GREATER_EQ), true),
        kind(EARLY_DATE_MONTH, ("NotEq", operator::NOT_EQ), true),
        kind(EARLY_MOMENT_DAY, (&set, operator::NOT_IN), true),
        kind(INT, (">=", operator::GREATER_EQ), false),
    ];
    kinds.into_iter().flat_map(|kind| [kind.clone(), Leaves { asked: Asked::Older, ..kind }]).collect()
}

fn kind(setting: Setting, (word, operator): (&str, u16), lifted: bool) -> Leaves {
    let name = format!("Older, {}: {word}", setting.text);
    let leaves = leaves(setting, operator, &mut Draw::new());
    Leaves { name, asked: Asked::Strict, leaves, lifted }
}
