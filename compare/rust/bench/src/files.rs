//! The summaries that are timed, each with the sheet of a predicate, or two that are pooled, kind by kind.

use beside::draw::Draw;
use beside::leaf::{LITERALS, Leaf, column, compare, operator, transform};
use beside::sheet::{sheet_of, summary_of};

use crate::kinds::{LEAVES, SETS};

/// The bytes of a sheet and of a summary to test with it.
type Asked = (Vec<u8>, Vec<u8>);

/// The tests of one kind.
pub struct Verdicts {
    pub name: String,
    pub asked: Vec<Asked>,
}

impl Verdicts {
    fn new(name: &str, asked: Vec<Asked>) -> Verdicts {
        Verdicts { name: format!("Summary, {name}"), asked }
    }
}

/// The pairs of summaries of one kind that are pooled.
pub struct Pools {
    pub name: String,
    pub pairs: Vec<(Vec<u8>, Vec<u8>)>,
}

/// All kinds of tests, in the order of the tables.
pub fn verdicts() -> Vec<Verdicts> {
    let (ints, strings) = ((column::INT, Draw::int as Content), (column::STRING, Draw::short_start as Content));
    let set = format!("In, {LITERALS}");
    vec![
        apart("Int: <", operator::LESS, 1, ints, Draw::int),
        apart("String: StartsWith", operator::STARTS_WITH, 1, strings, Draw::lot_code),
        apart(&format!("Int: {set}"), operator::IN, LITERALS, ints, Draw::int),
        // days from 1970 to 2030 are few among the numbers that are drawn
        apart(&format!("Int: {set}, none between"), operator::IN, LITERALS, ints, Draw::date),
        apart(&format!("String: {set}"), operator::IN, LITERALS, strings, Draw::lot_code),
        in_a_row(&format!("Int: {set} in a row, their ends")),
    ]
}

/// All kinds of pairs, in the order of the tables.
pub fn pools() -> Vec<Pools> {
    vec![pairs("Int", column::INT, Draw::int), pairs("String", column::STRING, Draw::lot_code)]
}

/// Draws a content.
type Content = fn(&mut Draw) -> Vec<u8>;

/// Two ends that are drawn, the lowest first.
fn ends(draw: &mut Draw, column: u8, end: Content) -> [Vec<u8>; 2] {
    let mut ends = [end(draw), end(draw)];
    ends.sort_by(|a, b| compare(column, a, b));
    ends
}

/// Files with ends that are drawn: of two, either may have the lower lowest and either the higher highest.
fn pairs(name: &str, column: u8, end: Content) -> Pools {
    let mut draw = Draw::new();
    let mut file = || {
        let [lowest, highest] = ends(&mut draw, column, end);
        summary_of(column, &lowest, &highest)
    };
    let pairs = (0..LEAVES).map(|_| (file(), file())).collect();
    Pools { name: format!("Summary, {name}: two files"), pairs }
}

/// Literals that are drawn, and ends that are, mostly far apart.
fn apart(name: &str, operator: u16, literals: usize, (column, literal): (u8, Content), end: Content) -> Verdicts {
    let mut draw = Draw::new();
    let leaves = if literals == 1 { LEAVES } else { SETS };
    let test = |_| {
        let literals = (0..literals).map(|_| literal(&mut draw)).collect();
        asked(operator, column, literals, &ends(&mut draw, column, end))
    };
    Verdicts::new(name, (0..leaves).map(test).collect())
}

/// As many numbers in a row as a set may have, with the ends at the first and the last of them: the longest walk from one end to the
/// other. In the set they stand in no order.
fn in_a_row(name: &str) -> Verdicts {
    let mut draw = Draw::new();
    let test = |_| {
        let start = draw.below(1 << 30) as i32;
        let number = |place: usize| (start + place as i32).to_le_bytes().to_vec();
        // an odd step visits all places of a power of two
        let literals = (0..LITERALS).map(|place| number(place * 37 % LITERALS)).collect();
        asked(operator::IN, column::INT, literals, &[number(0), number(LITERALS - 1)])
    };
    Verdicts::new(name, (0..SETS).map(test).collect())
}

fn asked(operator: u16, column: u8, literals: Vec<Vec<u8>>, [lowest, highest]: &[Vec<u8>; 2]) -> Asked {
    let leaf = Leaf { operator, column, transform: transform::IDENTITY, width: 0, literals };
    (sheet_of(&leaf), summary_of(column, lowest, highest))
}
