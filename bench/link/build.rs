//! Links the proved library, which `rt lib` makes in crates/bridge.

use std::env;
use std::path::Path;

fn main() {
    let package = env::var("CARGO_MANIFEST_DIR").expect("cargo names the package's folder");
    let folder = Path::new(&package).join("../../crates/bridge/out");
    let library = folder.join("libbridge.a");
    assert!(library.exists(), "{} is missing: make it by `rt lib` in crates/bridge", library.display());
    println!("cargo::rerun-if-changed={}", library.display());
    println!("cargo::rustc-link-search=native={}", folder.display());
    println!("cargo::rustc-link-lib=static=bridge");
}
