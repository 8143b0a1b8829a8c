//! Where the original sources are at hand, assembles a copy of them that compiles on its own, and where the archive of
//! crates/narrow_timing is at hand, links it. Without them the crate builds without the cfg `original` or `timing`.

use std::path::{Path, PathBuf};
use std::{env, fs};

#[path = "build/edits.rs"]
mod edits;

use edits::{Change, EDITS, Edit};

fn main() {
    println!("cargo::rustc-check-cfg=cfg(original, timing)");
    println!("cargo::rerun-if-changed=build.rs");
    println!("cargo::rerun-if-changed=build");
    if let Err(message) = assemble_original() {
        println!("cargo::error={message}");
    }
    link_timing();
}

fn link_timing() {
    let folder = folder("LANG_AST_LIB", "../../crates/narrow_timing/out");
    let archive = folder.join("libnarrow_timing.a");
    println!("cargo::rerun-if-changed={}", archive.display());
    if archive.is_file() {
        println!("cargo::rustc-link-search=native={}", folder.display());
        println!("cargo::rustc-link-lib=static=narrow_timing");
        println!("cargo::rustc-cfg=timing");
    }
}

/// The folder that the variable names, or else the one beside this crate.
fn folder(variable: &str, otherwise: &str) -> PathBuf {
    println!("cargo::rerun-if-env-changed={variable}");
    let manifest = env::var_os("CARGO_MANIFEST_DIR").expect("cargo sets it");
    env::var_os(variable).map_or_else(|| Path::new(&manifest).join(otherwise), PathBuf::from)
}

const FILES: [&str; 3] = ["lib.rs", "nameres.rs", "narrow.rs"];

fn assemble_original() -> Result<(), String> {
    let folder = folder("LANG_AST_SRC", "../../../shared/docs/src");
    println!("cargo::rerun-if-changed={}", folder.display());
    let Some(sources) = FILES
        .iter()
        .map(|file| find_source(&folder, file))
        .collect::<Option<Vec<PathBuf>>>()
    else {
        // A folder that the user names must have them; without one the crate builds without the original.
        return match env::var_os("LANG_AST_SRC") {
            Some(_) => Err(format!(
                "LANG_AST_SRC: {} lacks one of {FILES:?}",
                folder.display()
            )),
            None => Ok(()),
        };
    };
    let out = PathBuf::from(env::var_os("OUT_DIR").expect("cargo sets it"));
    for (file, source) in FILES.iter().zip(sources) {
        println!("cargo::rerun-if-changed={}", source.display());
        let text = fs::read_to_string(&source).map_err(|error| error.to_string())?;
        let edits = EDITS.iter().filter(|edit| edit.file == *file);
        let text = edits.into_iter().try_fold(text, apply)?;
        fs::write(out.join(file), text).map_err(|error| error.to_string())?;
    }
    println!("cargo::rustc-cfg=original");
    Ok(())
}

/// A source under its plain name, or under the name it has in a collection of sources.
fn find_source(folder: &Path, file: &str) -> Option<PathBuf> {
    let collected = format!("src--crates--lang_ast--src--{file}.txt");
    let candidates = [folder.join(collected), folder.join(file)];
    candidates.into_iter().find(|path| path.is_file())
}

/// The text after the edit, which must have exactly one place to be made at.
fn apply(text: String, edit: &Edit) -> Result<String, String> {
    let (start, end, new) = match edit.change {
        Change::Replace(old, new) => {
            let start = only_place(&text, old, edit)?;
            (start, start + old.len(), new)
        }
        Change::Cut(from, up_to) => {
            let start = only_place(&text, from, edit)?;
            (start, only_place(&text, up_to, edit)?, "")
        }
    };
    if start > end {
        return Err(describe(edit, "ends before it starts"));
    }
    Ok([&text[..start], new, &text[end..]].concat())
}

fn only_place(text: &str, anchor: &str, edit: &Edit) -> Result<usize, String> {
    let mut places = text.match_indices(anchor).map(|(place, _)| place);
    match (places.next(), places.next()) {
        (Some(place), None) => Ok(place),
        (None, _) => Err(describe(edit, "matches nowhere")),
        _ => Err(describe(edit, "matches more than once")),
    }
}

fn describe(edit: &Edit, fault: &str) -> String {
    format!("edit `{}` of {} {fault}", edit.name, edit.file)
}
