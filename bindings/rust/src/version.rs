//! Which library this crate goes with, by the number that the library tells.

/// This crate's version as such a number.
pub const OWN: u32 = number(
    part(env!("CARGO_PKG_VERSION_MAJOR")),
    part(env!("CARGO_PKG_VERSION_MINOR")),
    part(env!("CARGO_PKG_VERSION_PATCH")),
);

/// What a major and a minor version count in the number.
const MAJOR: u32 = 1_000_000;
const MINOR: u32 = 1_000;

/// The number of a version; `crates/weighpick_c/specs/Version.antt` in the repository defines it.
const fn number(major: u32, minor: u32, patch: u32) -> u32 {
    MAJOR * major + MINOR * minor + patch
}

/// A part of a version, which is all digits. Where it is not, or too large, this crate does not compile.
const fn part(digits: &str) -> u32 {
    let digits = digits.as_bytes();
    let (mut value, mut at) = (0, 0);
    while at < digits.len() {
        assert!(digits[at].is_ascii_digit());
        value = 10 * value + (digits[at] - b'0') as u32;
        at += 1;
    }
    value
}

/// What is wrong where the library told another number than a crate's own.
pub fn mismatch(own: u32, library: u32) -> Option<String> {
    if own == library {
        return None;
    }
    let [own, library] = [own, library].map(words);
    Some(format!(
        "the linked library weighpick_c is version {library}, and the crate weighpick is version {own}: build the library \
         anew with `tools/staticlib weighpick_c`, or set WEIGHPICK_LIB_DIR to the folder of one of version {own}"
    ))
}

/// The version with a number.
fn words(number: u32) -> String {
    let (major, minor, patch) = (number / MAJOR, number % MAJOR / MINOR, number % MINOR);
    format!("{major}.{minor}.{patch}")
}
