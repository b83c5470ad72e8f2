//! Links the proved library, which `rt lib` writes in crates/export.

use std::env;
use std::path::Path;

fn main() {
    let here = env::var("CARGO_MANIFEST_DIR").expect("cargo says where the crate is");
    let folder = Path::new(&here).join("../crates/export/out");
    println!("cargo:rustc-link-search=native={}", folder.display());
    println!("cargo:rustc-link-lib=static=export");
    println!(
        "cargo:rerun-if-changed={}",
        folder.join("libexport.a").display()
    );
}
