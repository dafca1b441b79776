//! Links crates/panel/out/libpanel.a, which `rt lib` in crates/panel writes, or the one in the folder PANEL_LIB.

use std::env;
use std::path::Path;

fn main() {
    println!("cargo:rerun-if-env-changed=PANEL_LIB");
    let folder = env::var("PANEL_LIB")
        .unwrap_or_else(|_| format!("{}/../crates/panel/out", env!("CARGO_MANIFEST_DIR")));
    let archive = Path::new(&folder).join("libpanel.a");
    assert!(
        archive.exists(),
        "no {}: run `rt lib` in crates/panel first",
        archive.display()
    );
    println!("cargo:rerun-if-changed={}", archive.display());
    println!("cargo:rustc-link-search=native={folder}");
    println!("cargo:rustc-link-lib=static=panel");
}
