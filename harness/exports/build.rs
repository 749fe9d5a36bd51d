//! Finds the static libraries of the exports and links them.

use std::env;
use std::path::PathBuf;

/// `libNAME.a` each; exports of the model, of its terms as records, of the matrix, of site changes, of the program, of the
/// parameters' columns, of selectors, contraction and unit scales, and of the last three on bytes.
const LIBRARIES: [&str; 9] = [
    "capi",
    "capi_terms",
    "capi_sens",
    "capi_change",
    "capi_problem",
    "capi_parameters",
    "capi_sensitivity",
    "capi_columns",
    "capi_contraction",
];

fn main() {
    println!("cargo:rerun-if-changed=build.rs");
    println!("cargo:rerun-if-env-changed=CAPI_LIB_DIR");
    if env::var_os("CARGO_FEATURE_MOCK").is_some() {
        return;
    }
    let dir = match env::var_os("CAPI_LIB_DIR") {
        Some(dir) => PathBuf::from(dir),
        None => {
            let here = env::var_os("CARGO_MANIFEST_DIR").expect("set by cargo");
            PathBuf::from(here).join("../../target/staticlib")
        }
    };
    println!("cargo:rustc-link-search=native={}", dir.display());
    for name in LIBRARIES {
        let library = dir.join(format!("lib{}.a", name));
        println!("cargo:rerun-if-changed={}", library.display());
        if library.exists() {
            // Not bundled: each program links the libraries themselves.
            println!("cargo:rustc-link-lib=static:-bundle={}", name);
        } else {
            // Without this line the linker's list of missing exports would be all there is.
            println!(
                "cargo:warning={} is not there: build the static libraries first, or set CAPI_LIB_DIR",
                library.display()
            );
        }
    }
}
