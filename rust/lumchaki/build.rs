//! Links the static library that `rt lib` builds in crates/lumchaki.

use std::env;
use std::path::Path;

fn main() {
    let manifest = env::var("CARGO_MANIFEST_DIR").expect("cargo names the crate's directory");
    let directory = Path::new(&manifest).join("../../crates/lumchaki/out");
    let library = directory.join("liblumchaki.a");
    println!("cargo:rerun-if-changed={}", library.display());
    assert!(
        library.exists(),
        "{} is not there: run `rt lib` in crates/lumchaki first",
        library.display()
    );
    println!("cargo:rustc-link-search=native={}", directory.display());
    println!("cargo:rustc-link-lib=static=lumchaki");
}
