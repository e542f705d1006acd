//! The filters that are timed, kind by kind, over document 02's two columns.

use sheets::draw::Draw;
use sheets::filter::{Asked, LEAVES, TEXT, column_list};
use sheets::leaf::number;
use sheets::port;
use timing::{a_call, in_turn, pass};

use crate::writer::{EXAMPLE, GRAMS, LOT, Weighing, filter};
use crate::{agree, tables};

/// Weighings of a kind: several, so that no branch is learned from one alone.
const WEIGHINGS: usize = 16;
/// Texts of a kind that are drawn: few enough for the nearest cache.
const TEXTS: usize = 4;

/// Nanoseconds a call of the plain parser and of the C name; for a long text also of the C name for one of half its length.
pub type Times = timing::Times<3>;
pub const PLAIN: usize = 0;
pub const C_NAME: usize = 1;
pub const C_NAME_HALF: usize = 2;

/// What is asked in a row of the tables: each text with each weighing's values.
pub struct Kind {
    pub name: String,
    pub asked: Asked,
    texts: Vec<Vec<u8>>,
    /// Texts of half the length, where the kind is about that.
    half: Vec<Vec<u8>>,
}

impl Kind {
    pub fn is_long(&self) -> bool {
        !self.half.is_empty()
    }

    /// Nanoseconds a call.
    pub fn time(&self) -> Times {
        let columns = column_list(&[LOT, GRAMS]);
        let (whole, half) = (self.calls(&self.texts), self.calls(&self.half));
        let port = |(text, values): &Call| port::filter(self.asked, &columns, text, values);
        let plain = |(text, values): &Call| plain::filter(self.asked, &columns, text, values);
        for call in whole.iter().chain(&half) {
            let number = port(call);
            assert_eq!(plain(call), number, "{}: {}", self.name, String::from_utf8_lossy(&call.0));
            assert!(self.is_long() || number <= number::NONE, "{}: is answered", self.name);
        }
        let timed_half = if self.is_long() { pass(&half, port) } else { None };
        // texts of half the length are as many
        a_call(in_turn([pass(&whole, plain), pass(&whole, port), timed_half]), whole.len())
    }

    fn calls(&self, texts: &[Vec<u8>]) -> Vec<Call> {
        let mut draw = Draw::new();
        let values = |_| Weighing::draw(&mut draw).values(self.asked);
        let weighings: Vec<Vec<u8>> = (0..WEIGHINGS / texts.len().max(1)).map(values).collect();
        let with_all = |text: &Vec<u8>| weighings.iter().map(|w| (text.clone(), w.clone())).collect::<Vec<Call>>();
        texts.iter().flat_map(with_all).collect()
    }
}

/// A text and the values beside the columns.
type Call = (Vec<u8>, Vec<u8>);

pub struct Kinds(Vec<Kind>);

impl Kinds {
    /// Those whose name has the text in it, in the order of the tables.
    pub fn named(only: &str) -> Kinds {
        let all = short().into_iter().chain(long());
        Kinds(all.filter(|kind| kind.name.contains(only)).collect())
    }

    pub fn is_empty(&self) -> bool {
        self.0.is_empty()
    }

    /// The names, each once.
    pub fn names(self) -> Vec<String> {
        let mut names: Vec<String> = self.0.into_iter().map(|kind| kind.name).collect();
        names.dedup();
        names
    }

    /// Compares answers, then times all kinds: the tables.
    pub fn tables(&self) -> String {
        agree::compare_answers();
        tables::tables(&self.0)
    }
}

fn short() -> Vec<Kind> {
    use Asked::{Inclusive, Row, Strict};
    let mut draw = Draw::new();
    let full: Vec<String> = (0..TEXTS).map(|_| filter(&mut draw, &[LOT, GRAMS], LEAVES)).collect();
    let full: Vec<&str> = full.iter().map(String::as_str).collect();
    let mut kinds = Vec::new();
    let mut put = |name: &str, texts: &[&str], questions: &[Asked]| {
        let texts: Vec<Vec<u8>> = texts.iter().map(|text| text.as_bytes().to_vec()).collect();
        let kind = |asked: &Asked| Kind {
            name: format!("Filter: {name}"),
            asked: *asked,
            texts: texts.clone(),
            half: Vec::new(),
        };
        kinds.extend(questions.iter().map(kind));
    };
    put("02's example", &[EXAMPLE], &[Row, Inclusive, Strict]);
    put("one leaf, a number", &["grams < 300"], &[Row, Inclusive, Strict]);
    put("one leaf, a text", &["lot startswith 'ab'"], &[Row, Inclusive, Strict]);
    put(&format!("{LEAVES} leaves"), &full, &[Row, Inclusive, Strict]);
    kinds
}

/// Texts as long as they may be, asked of a row: what they take is for reading them.
fn long() -> Vec<Kind> {
    let kind = |name: &str, text: fn(usize) -> String| Kind {
        name: format!("Filter, {TEXT} bytes: {name}"),
        asked: Asked::Row,
        texts: vec![text(TEXT).into_bytes()],
        half: vec![text(TEXT / 2).into_bytes()],
    };
    vec![
        kind("02's example, then spaces", |length| format!("{EXAMPLE:length$}")),
        kind("opening brackets", |length| "(".repeat(length)),
        kind("one leaf, zeros before its digit", |length| {
            let leaf = "grams < ";
            format!("{leaf}{:0>1$}", 7, length - leaf.len())
        }),
        kind("nots before one leaf", |length| repeated("not ", "grams < 300", length)),
        kind("leaves under not", |length| repeated("grams < 300 and not lot = 'abcd' or ", "grams < 300", length)),
        kind("leaves in brackets", |length| repeated("(grams < 300 and (lot = 'abcd')) or ", "grams < 300", length)),
    ]
}

/// A part as often as the length has room for it, its end, and spaces.
fn repeated(part: &str, end: &str, length: usize) -> String {
    let text = part.repeat((length - end.len()) / part.len()) + end;
    format!("{text:length$}")
}
