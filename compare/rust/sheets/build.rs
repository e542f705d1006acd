//! Links the port's static library, which `build.sh` names in the environment.
use std::path::Path;

const LIBRARY: &str = "WEIGHPICK_LIB";

fn main() {
    let file = std::env::var(LIBRARY).unwrap_or_else(|_| panic!("{LIBRARY} is not set: build with compare/build.sh"));
    let folder = Path::new(&file).parent().expect("the library's path names a file");
    println!("cargo:rerun-if-env-changed={LIBRARY}");
    println!("cargo:rerun-if-changed={file}");
    println!("cargo:rustc-link-search=native={}", folder.display());
    println!("cargo:rustc-link-lib=static=weighpick_c");
}
