//! The library tells this crate's version, and one that tells another is not called.

// One of them is called here.
#[allow(dead_code)]
#[path = "../src/c_names.rs"]
mod c_names;
#[path = "../src/version.rs"]
mod version;

use version::{mismatch, OWN};
use weighpick::sheet::holds;
use weighpick::Refusal;

const DEFINITION: &str = include_str!("../../../crates/weighpick_c/specs/Version.antt");
const SOURCE: &str = include_str!("../../../crates/weighpick_c/src/lib.rt");
const CALLS: &str = include_str!("../src/ffi.rs");
const NAMES: &str = include_str!("../src/c_names.rs");

/// Digits, with `_` between them or none.
fn digits(text: &str) -> u32 {
    let digits = text.trim().replace('_', "");
    digits
        .parse()
        .unwrap_or_else(|_| panic!("`{text}` is no number"))
}

#[test]
fn the_library_tells_this_crate_s_version() {
    // SAFETY: it takes nothing, and only gives a number.
    let told = unsafe { c_names::weighpick_version() };
    assert_eq!(told, OWN);
    // So the others are called: no sheet is refused.
    assert_eq!(holds(&[], &[]), Err(Refusal::Malformed));
}

#[test]
fn as_the_library_defines_it() {
    let line = format!("version = version_number {}", env!("CARGO_PKG_VERSION"));
    let line = line.replace('.', " ");
    assert!(DEFINITION.lines().any(|l| l == line), "{line}");
    let (_, behind) = SOURCE
        .split_once("fn weighpick_version()")
        .expect("its function");
    let (_, body) = behind.split_once("\n{").expect("its body");
    let (body, _) = body.split_once('}').expect("its end");
    assert_eq!(digits(body), OWN);
}

#[test]
fn another_version_is_told_in_words() {
    assert_eq!(mismatch(9_000, 9_000), None);
    for (library, words) in [
        (8_000, "0.8.0"),
        (9_001, "0.9.1"),
        (1_009_000, "1.9.0"),
        (12_034_056, "12.34.56"),
    ] {
        let told = mismatch(9_000, library).expect("another version");
        for part in [
            &format!("weighpick_c is version {words},"),
            "crate weighpick is version 0.9.0:",
            "`tools/staticlib weighpick_c`",
            "WEIGHPICK_LIB_DIR",
        ] {
            assert!(told.contains(part), "no `{part}` in `{told}`");
        }
    }
}

/// Every C name is called by one function of one file, and not before the version is looked at; but the version's own is.
#[test]
fn no_call_passes_by_the_version() {
    let called = |text: &str| text.matches("c_names::weighpick_").count();
    let functions = CALLS.split("\n}\n").filter(|text| called(text) > 0);
    let (asks, others): (Vec<&str>, Vec<&str>) =
        functions.partition(|text| text.contains("c_names::weighpick_version()"));
    assert_eq!(asks.iter().map(|text| called(text)).sum::<usize>(), 1);
    for text in &others {
        let (before, _) = text.split_once("c_names::weighpick_").expect("a C name");
        assert!(before.contains("checked("), "{text}");
    }
    let names = NAMES.matches("pub fn weighpick_").count();
    let called: usize = others.iter().map(|text| called(text)).sum();
    assert_eq!(1 + called, names);
}
