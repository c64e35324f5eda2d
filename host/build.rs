//! Links the static library of the proved entry points.

use std::path::Path;

fn main() {
    let package = env!("CARGO_MANIFEST_DIR");
    let folder = Path::new(package).join("../target/staticlib");
    let library = folder.join("libabi.a");
    println!("cargo::rerun-if-changed={}", library.display());
    if !library.is_file() {
        println!("cargo::error=../target/staticlib/libabi.a is missing: run host/build");
        return;
    }
    println!("cargo::rustc-link-search=native={}", folder.display());
    println!("cargo::rustc-link-lib=static=abi");
}
