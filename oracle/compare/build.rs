//! Links the archive of the proved calls, which `scripts/archive` writes.

use std::path::Path;

fn main() {
    let build = Path::new(env!("CARGO_MANIFEST_DIR")).join("../../build");
    println!("cargo:rerun-if-changed={}", build.join("libbodkinbloom.a").display());
    println!("cargo:rustc-link-search=native={}", build.display());
    println!("cargo:rustc-link-lib=static=bodkinbloom");
}
