//! Compares the copied files with their stored checksums, then writes each of them into OUT_DIR with one marked
//! block behind it that names a child module. The child reaches the private items; the text itself is not changed.

use std::path::{Path, PathBuf};
use std::{env, fs};

#[path = "build/sha256.rs"]
mod sha256;

/// The copied files, each with its child module, if it has one.
const FILES: [(&str, bool); 5] = [
    ("disjointsets", true),
    ("trie_again", true),
    ("overlap", true),
    ("recursion", true),
    ("stablemapset", false),
];

fn main() {
    let root = PathBuf::from(env::var("CARGO_MANIFEST_DIR").unwrap());
    let out = PathBuf::from(env::var("OUT_DIR").unwrap());
    let original = root.join("isle/original");
    println!("cargo:rerun-if-changed=isle");
    println!("cargo:rerun-if-changed=build");
    println!("cargo:rerun-if-changed=build.rs");

    let sums = fs::read_to_string(original.join("SHA256SUMS")).expect("SHA256SUMS");
    let mut modules = String::new();
    for (name, child) in FILES {
        let file = format!("{name}.rs");
        let text = fs::read_to_string(original.join(&file)).expect("a copied file");
        let sum = sha256::hex(text.as_bytes());
        assert!(
            sums.lines().any(|line| line == format!("{sum}  {file}")),
            "isle/original/{file} is not the file whose checksum is stored"
        );
        let whole = if child { text + &block(&root, name) } else { text };
        fs::write(out.join(&file), whole).unwrap();
        modules += &format!("#[path = {:?}]\npub mod {name};\n", path(&out.join(&file)));
    }
    fs::write(out.join("original.rs"), modules).unwrap();
}

fn block(root: &Path, name: &str) -> String {
    let child = root.join(format!("isle/inside/{name}.rs"));
    format!(
        "\n// ---- appended by build.rs ----\n#[path = {:?}]\npub mod inside;\n// ---- end of the appended block ----\n",
        path(&child)
    )
}

fn path(p: &Path) -> &str {
    p.to_str().expect("a path in UTF-8")
}
