//! Links the archive that `sh tests/built lintelbox` writes.

fn main() {
    let root = std::env::var("CARGO_MANIFEST_DIR").unwrap();
    println!("cargo:rustc-link-search=native={root}/../crates/lintelbox/out");
    println!("cargo:rustc-link-lib=static=lintelbox");
    println!("cargo:rerun-if-changed={root}/../crates/lintelbox/out/liblintelbox.a");
}
