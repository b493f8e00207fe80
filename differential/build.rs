//! Links libruns.a and libhost.a where a feature asks for a group of their exports. RUNS_LIB_DIR names their folder; else it is
//! ../target/staticlib.
use std::env;

fn main() {
    println!("cargo:rerun-if-env-changed=RUNS_LIB_DIR");
    let here = env::var("CARGO_MANIFEST_DIR").expect("cargo sets it");
    let folder = env::var("RUNS_LIB_DIR").unwrap_or(format!("{here}/../target/staticlib"));
    for (library, groups) in [("runs", &["QUERIES", "BINARY", "TEXT", "FAIR", "WHITE_SPACE", "TARIFF"][..]), ("host", &["HOST"])] {
        if groups.iter().any(|g| env::var_os(format!("CARGO_FEATURE_{g}")).is_some()) {
            println!("cargo:rerun-if-changed={folder}/lib{library}.a");
            println!("cargo:rustc-link-search=native={folder}");
            println!("cargo:rustc-link-lib=static={library}");
        }
    }
}
