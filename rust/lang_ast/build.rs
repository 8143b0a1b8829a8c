//! Links the static library of the proved crates.

use std::env;
use std::path::{Path, PathBuf};

fn main() {
    println!("cargo::rerun-if-changed=build.rs");
    println!("cargo::rerun-if-env-changed=LANG_AST_LIB");
    let manifest = env::var_os("CARGO_MANIFEST_DIR").expect("cargo sets it");
    let folder = env::var_os("LANG_AST_LIB").map_or_else(
        || Path::new(&manifest).join("../../crates/lang_ast/out"),
        PathBuf::from,
    );
    let archive = folder.join("liblang_ast.a");
    println!("cargo::rerun-if-changed={}", archive.display());
    if !archive.is_file() {
        println!(
            "cargo::error=no {}: write it with `rt lib` in crates/lang_ast, or name its folder by LANG_AST_LIB",
            archive.display()
        );
    }
    println!("cargo::rustc-link-search=native={}", folder.display());
    println!("cargo::rustc-link-lib=static=lang_ast");
}
