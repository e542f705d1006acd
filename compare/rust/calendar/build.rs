//! Links the port's calendar, which `compare/calendar` makes and names in the environment.

const FOLDER: &str = "CALENDAR_LIB_DIR";

fn main() {
    let folder = std::env::var(FOLDER).unwrap_or_else(|_| panic!("{FOLDER} is not set: build with compare/calendar"));
    println!("cargo:rerun-if-env-changed={FOLDER}");
    println!("cargo:rerun-if-changed={folder}/libcalendar_c.a");
    println!("cargo:rustc-link-search=native={folder}");
    println!("cargo:rustc-link-lib=static=calendar_c");
}
