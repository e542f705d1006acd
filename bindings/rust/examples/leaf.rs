//! Takes a leaf in words and prints what program `weighpick` prints for its sheet.

use std::process::ExitCode;

mod words;

const USAGE: &str = "\
usage: leaf TYPE TRANSFORM OPERATOR [LITERAL ..]     prints both projections of a leaf, as program weighpick does
       leaf --help
  TYPE       int long date time timestamp timestamptz timestamp_ns timestamptz_ns string binary
  TRANSFORM  identity, truncate WIDTH, year, month, day, hour, void, unknown
  OPERATOR   is-null not-null is-nan not-nan '<' '<=' '>' '>=' = != starts-with not-starts-with in not-in
  LITERAL    a number, a string as it is, a binary in hexadecimal, - if empty
as in:
  leaf int truncate 10 '<' 300
  leaf string truncate 3 starts-with abc
  leaf timestamp day in 0 86400000000
  leaf date month is-null";

fn main() -> ExitCode {
    words::run(USAGE, |given| {
        let leaf = words::leaf::leaf(given)?;
        Ok(words::leaf::lines(&leaf))
    })
}
