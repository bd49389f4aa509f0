//! Says where the static library is: the folder that `rt lib` writes it to in crates/welmuzra, or the one in WELMUZRA_LIB.

use std::path::PathBuf;

fn main() {
    println!("cargo:rerun-if-env-changed=WELMUZRA_LIB");
    let folder = std::env::var_os("WELMUZRA_LIB").map_or_else(
        || PathBuf::from(env!("CARGO_MANIFEST_DIR")).join("../../crates/welmuzra/out"),
        PathBuf::from,
    );
    println!(
        "cargo:rerun-if-changed={}",
        folder.join("libwelmuzra.a").display()
    );
    println!("cargo:rustc-link-search=native={}", folder.display());
    println!("cargo:rustc-link-lib=static=welmuzra");
}
