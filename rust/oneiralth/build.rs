//! Links the proved library, which `tools/build boundary` makes.

use std::env;
use std::path::PathBuf;

fn main() {
    let here = PathBuf::from(env::var_os("CARGO_MANIFEST_DIR").expect("cargo names the crate's folder"));
    let folder = here.join("../../crates/boundary/out");
    let library = folder.join("libboundary.a");
    assert!(library.exists(), "{} is not there: 'tools/build boundary' makes it", library.display());
    println!("cargo:rustc-link-search=native={}", folder.display());
    println!("cargo:rustc-link-lib=static=boundary");
    println!("cargo:rerun-if-changed={}", library.display());
}
