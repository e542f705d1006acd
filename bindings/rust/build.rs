//! Links the static library with the proved routines, `libweighpick_c.a`.

use std::path::{Path, PathBuf};
use std::{env, process};

/// What the library is built for.
const ARCHITECTURE: &str = "x86_64";

/// The library, as `tools/staticlib` names it.
const LIBRARY: &str = "weighpick_c";

/// Where the library lies, if not in `DEFAULT_DIR`; a relative path starts at this crate's folder.
const DIR_VARIABLE: &str = "WEIGHPICK_LIB_DIR";

/// Where `tools/staticlib` writes it, seen from this crate's folder.
const DEFAULT_DIR: &str = "../../target/staticlib";

fn main() {
    check_architecture();
    println!("cargo:rerun-if-env-changed={DIR_VARIABLE}");
    let dir = env::var_os(DIR_VARIABLE).map_or_else(|| PathBuf::from(DEFAULT_DIR), PathBuf::from);
    let archive = dir.join(format!("lib{LIBRARY}.a"));
    println!("cargo:rerun-if-changed={}", archive.display());
    // The linker runs elsewhere, so it gets the whole path.
    match dir.canonicalize() {
        Ok(whole) if archive.is_file() => {
            println!("cargo:rustc-link-search=native={}", whole.display());
            println!("cargo:rustc-link-lib=static={LIBRARY}");
        }
        _ => end(&missing(&archive)),
    }
}

/// Ends here where the linker would only say that it cannot use the library.
fn check_architecture() {
    let target = env::var("CARGO_CFG_TARGET_ARCH").unwrap_or_default();
    if target != ARCHITECTURE {
        end(&format!(
            "weighpick needs x86-64: the proved library {LIBRARY} is compiled for {ARCHITECTURE} alone, \
             and this build is for {target}"
        ));
    }
}

/// What is to be done where the library is not there.
fn missing(archive: &Path) -> String {
    format!(
        "{} is missing: run `tools/staticlib {LIBRARY}` in the repository's root, \
         or set {DIR_VARIABLE} to the folder that holds it",
        archive.display()
    )
}

/// Ends the build, with the reason.
fn end(reason: &str) -> ! {
    eprintln!("{reason}");
    process::exit(1);
}
