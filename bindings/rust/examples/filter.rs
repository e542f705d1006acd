//! Takes a filter in words, its columns and a row, and prints what it is answered: of the row, and of its partition values under both
//! questions.

use std::process::ExitCode;

mod words;

const USAGE: &str = "\
usage: filter TEXT NAME=TYPE:TRANSFORM .. -- VALUE ..     asks a filter of a row, and of its partition values
       filter --help
  TEXT       a filter, with and, or, not and brackets
  NAME       letters a to z
  TYPE       int long date time timestamp timestamptz timestamp_ns timestamptz_ns string binary
  TRANSFORM  identity, truncate:WIDTH, year, month, day, hour, void, unknown
  VALUE      one a column: missing, a number, a string as it is, a binary in hexadecimal, - if empty
prints a line for the row, for its partition values, and for each question of them: 0 is yes, 1 no, every other a refusal
as in:
  filter \"lot startswith 'ab' and grams < 300\" lot=string:truncate:4 grams=int:truncate:10 -- abcd 290
  filter \"lot != 'ab12'\" lot=string:truncate:4 -- missing";

fn main() -> ExitCode {
    words::run(USAGE, |given| words::filter::asked(given)?.lines())
}
