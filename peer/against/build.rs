//! Links the static libraries under test from where the main build leaves them, seen from this package.

use std::env;
use std::path::Path;

const CRATES: &str = "../../crates";
/// The adapter, and the multiplex's map.
const LIBRARIES: [&str; 2] = ["feed", "feedmap"];

fn main() {
    let package = env::var("CARGO_MANIFEST_DIR").expect("cargo sets it");
    for name in LIBRARIES {
        let folder = Path::new(&package).join(CRATES).join(name).join("out");
        println!("cargo:rustc-link-search=native={}", folder.display());
        println!("cargo:rustc-link-lib=static={name}");
        // A library built anew has to be linked anew.
        let library = folder.join(format!("lib{name}.a"));
        println!("cargo:rerun-if-changed={}", library.display());
    }
    println!("cargo:rerun-if-changed=build.rs");
}
