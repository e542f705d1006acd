//! Texts that the plain parser and the port are both asked.

use sheets::draw::Draw;
use sheets::filter::{BRACKETS, Column, LEAVES, TEXT};
use sheets::leaf::CONTENT;

use crate::writer::{EXAMPLE, SIGNS, filter};

/// Texts that are drawn for each column list; of each there is a damaged copy.
const DRAWN: usize = 200;
/// Leaves of a drawn text: some have too many.
const MOST_LEAVES: u64 = LEAVES as u64 + 4;

/// Texts that a sentence of document 02 turns on. The columns are `lot` and `grams`.
pub fn listed() -> Vec<Vec<u8>> {
    let read = [
        EXAMPLE,
        "grams<1and grams<2",
        "grams startswith1",
        "lot startswith'x'",
        "not(grams<1)",
        "not not grams<1",
        "  ( ( grams  <=  -0 ) )  ",
        "grams < 1 or grams < 2 and not grams < 3 or lot = ''",
        "not grams >= -2147483640",
        "not grams < -2147483640",
        "grams > 2147483647 or grams >= -2147483648",
        "grams = 2147483647 and grams != 0000000000000000000000000000007",
        "lot = 'AB\t \u{e9}()<'",
        "lot startswith 'éééé'",
        "lot startswith 'ééééé' or not lot startswith 'ééééé'",
        "not lot startswith 'abcd' and lot != 'abcde'",
    ];
    let outside = [
        "",
        " ",
        "()",
        "grams",
        "grams <",
        "grams < 1 grams < 2",
        "grams < 1 and",
        "and grams < 1",
        "(grams < 1",
        "grams < 1)",
        "grams < = 1",
        "grams == 1",
        "grams <> 1",
        "grams ! = 1",
        "grams < - 1",
        "grams < +1",
        "grams < 1.5",
        "grams < -",
        "grams < 2147483648",
        "grams < -2147483649",
        "grams < 9223372036854775808",
        "grams < '1'",
        "lot < 1",
        "lot = 'a",
        "nota < 1",
        "lotstartswith 'a'",
        "Lot = 'a'",
        "lot\t= 'a'",
        "other < 1",
        "not",
        "lot startswith not",
    ];
    let mut texts: Vec<Vec<u8>> = read.iter().chain(&outside).map(|text| text.as_bytes().to_vec()).collect();
    for nested in [BRACKETS, BRACKETS + 1] {
        let (open, close) = ("(".repeat(nested), ")".repeat(nested));
        texts.push(format!("{open}grams < 1{close}").into_bytes());
        texts.push(format!("{open}other < 1{close}").into_bytes());
        texts.push(format!("{open}grams < 1 and not {open}lot = 'a'{close}{close} or grams < 1").into_bytes());
        texts.push(format!("{open}grams < 1").into_bytes());
        texts.push(vec!["(grams < 1)"; nested].join(" or ").into_bytes());
    }
    for leaves in [LEAVES, LEAVES + 1] {
        texts.push(vec!["grams < 1"; leaves].join(" and ").into_bytes());
        texts.push(format!("{} ?", vec!["grams < 1"; leaves].join(" and ")).into_bytes());
    }
    for length in [TEXT, TEXT + 1] {
        texts.push(format!("{EXAMPLE:length$}").into_bytes());
        texts.push("(".repeat(length).into_bytes());
        texts.push(format!("grams < {:0>1$}", 7, length - 8).into_bytes());
    }
    for length in [CONTENT, CONTENT + 1] {
        texts.push(format!("lot = '{:a<1$}'", "", length).into_bytes());
    }
    texts.push(b"lot = '\xff'".to_vec());
    texts
}

/// Every operator with short literals of any bytes, of each column alone and under `not`.
pub fn of_binaries(columns: &[Column]) -> Vec<Vec<u8>> {
    let literals =
        [&b""[..], b"a", b"ab", b"abc", b"abcd", b"abcde", b"\xc3", b"\xc3\xa9", b"a\xc3\xa9", b"\xff\0\x80"];
    let operators = || SIGNS.into_iter().chain(["startswith"]);
    let mut texts = Vec::new();
    for (column, operator) in columns.iter().flat_map(|column| operators().map(move |operator| (column, operator))) {
        for literal in literals {
            let leaf = [format!("{} {operator} '", column.name).as_bytes(), literal, b"'"].concat();
            texts.extend([[&b"not "[..], &leaf].concat(), leaf]);
        }
    }
    texts
}

/// Filters, and damaged copies of them.
pub fn drawn(draw: &mut Draw, columns: &[Column]) -> Vec<Vec<u8>> {
    let mut texts = Vec::new();
    for _ in 0..DRAWN {
        // most have few leaves, so that most are answered
        let limit = draw.one_of(&[4, 4, MOST_LEAVES]);
        let leaves = 1 + draw.below(limit) as usize;
        let text = filter(draw, columns, leaves).into_bytes();
        let mut damaged = text.clone();
        let at = draw.below(damaged.len() as u64) as usize;
        match draw.below(3) {
            0 => damaged[at] = draw.one_of(b" ()<=!'-09aor\xc3"),
            1 => damaged.truncate(at),
            _ => damaged.insert(at, draw.one_of(b" ()<=!'-09ant")),
        }
        texts.extend([text, damaged]);
    }
    texts
}
