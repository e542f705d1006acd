//! The tables of filters alone. An argument, if there is one, picks the kinds whose name has it in it.

use std::process::ExitCode;

use filters::Kinds;

/// The status of a run that was asked for a kind that is not there.
const MISUSED: u8 = 2;

fn main() -> ExitCode {
    let only = std::env::args().nth(1).unwrap_or_default();
    let kinds = Kinds::named(&only);
    if kinds.is_empty() {
        let names = Kinds::named("").names().join("\n  ");
        eprintln!("filters: no kind has `{only}` in its name; the kinds are\n  {names}");
        return ExitCode::from(MISUSED);
    }
    let tables = kinds.tables();
    print!("{}\n\n{tables}", timing::method());
    ExitCode::SUCCESS
}
