//! Takes a leaf in words and a list of files, each by the ends of its partition values, and prints what is done with each of them, or
//! with groups of them.

use std::process::ExitCode;

mod words;

const USAGE: &str = "\
usage: files TYPE TRANSFORM OPERATOR [LITERAL ..] -- FILE ..               picks files by their ends, for a leaf
       files TYPE TRANSFORM OPERATOR [LITERAL ..] -- FILE .. -- FILE ..    in groups, of which each begins with --
       files --help
  TYPE       int long date time timestamp timestamptz timestamp_ns timestamptz_ns string binary
  TRANSFORM  identity, truncate WIDTH, year, month, day, hour, void, unknown
  OPERATOR   is-null not-null is-nan not-nan '<' '<=' '>' '>=' = != starts-with not-starts-with in not-in
  LITERAL    a number, a string as it is, a binary in hexadecimal, - if empty
  FILE       LOWEST..HIGHEST, its partition values, with ,missing behind them if a missing one occurs; missing if there are
             only those; empty if there is none
prints a line for each file: skip, read or whole; before those of a group a line for all its files, by their pooled summary; if
that is skip, the files have no lines of their own
as in:
  files int truncate 10 '<' 300 -- 0..290 0..290,missing 290..300 300..450 missing empty
  files int truncate 10 '<' 300 -- 0..290 290..300 -- 300..310 400..450,missing empty
  files string truncate 3 starts-with abc -- aa..ab abc..abd";

fn main() -> ExitCode {
    words::run(USAGE, words::files::lines)
}
