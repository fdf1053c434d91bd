//! Links the static library of the crate `c_api`, which `tools/static-library` writes.

use std::path::Path;

fn main() {
    let folder = Path::new(env!("CARGO_MANIFEST_DIR")).join("../../target/staticlib");
    let library = folder.join("libc_api.a");
    assert!(library.exists(), "run `tools/static-library` first: {} is missing", library.display());
    println!("cargo:rustc-link-search=native={}", folder.display());
    println!("cargo:rustc-link-lib=static=c_api");
    println!("cargo:rerun-if-changed={}", library.display());
}
