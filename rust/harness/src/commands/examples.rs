//! `examples`: writes the files of the folder `examples`, or compares the folder with them.

use std::collections::HashMap;
use std::path::Path;
use std::{fs, io};

use super::{DONE, FAILED};
use crate::examples;

/// The page that a person writes; each example has a place in it.
const PAGE: &str = "README.md";
/// The program in C that a person writes: `tools/test-commands` compiles it and holds what it prints against the examples.
const PROGRAM: &str = "use.c";

pub fn write(folder: &str) -> u8 {
    let written = files().into_iter().try_for_each(|(name, bytes)| {
        let path = Path::new(folder).join(name);
        fs::write(path, bytes)
    });
    done(folder, written.map(|()| Vec::new()))
}

pub fn check(folder: &str) -> u8 {
    done(folder, faults(Path::new(folder)))
}

fn done(folder: &str, faults: io::Result<Vec<String>>) -> u8 {
    match faults {
        Ok(faults) if faults.is_empty() => DONE,
        Ok(faults) => {
            faults
                .iter()
                .for_each(|fault| println!("{folder}: {fault}"));
            println!("`harness examples {folder}` writes the files anew");
            FAILED
        }
        Err(error) => {
            eprintln!("{folder}: {error}");
            FAILED
        }
    }
}

fn files() -> Vec<(String, Vec<u8>)> {
    let examples = examples::all();
    examples
        .iter()
        .flat_map(|example| example.files())
        .collect()
}

/// Files that differ or are missing, files that belong to no example, and examples that the page does not speak of.
fn faults(folder: &Path) -> io::Result<Vec<String>> {
    let mut left: HashMap<String, Vec<u8>> = files().into_iter().collect();
    let mut faults = Vec::new();
    for entry in fs::read_dir(folder)? {
        let name = entry?.file_name().to_string_lossy().into_owned();
        let found = fs::read(folder.join(&name))?;
        match left.remove(&name) {
            Some(expected) if expected == found => {}
            Some(_) => faults.push(format!("{name} differs")),
            None if name == PAGE => faults.extend(unmentioned(&String::from_utf8_lossy(&found))),
            None if name == PROGRAM => {}
            None => faults.push(format!("{name} belongs to no example")),
        }
    }
    faults.extend(left.keys().map(|name| format!("{name} is missing")));
    faults.sort();
    Ok(faults)
}

fn unmentioned(page: &str) -> Vec<String> {
    let names = examples::all().into_iter().map(|example| example.name);
    let left_out = names.filter(|name| !page.contains(&format!("`{name}`")));
    left_out
        .map(|name| format!("{PAGE} lacks `{name}`"))
        .collect()
}

#[cfg(test)]
mod tests {
    use super::*;

    #[test]
    fn the_folder_is_what_is_written() {
        let folder = Path::new(env!("CARGO_MANIFEST_DIR")).join("../../examples");
        let faults = faults(&folder).expect("the folder can be read");
        assert_eq!(faults, Vec::<String>::new());
    }

    #[test]
    fn each_fault_of_a_folder_is_seen() {
        let folder = std::env::temp_dir().join(format!("examples-{}", std::process::id()));
        fs::create_dir_all(&folder).expect("a folder");
        let word = folder.to_str().expect("a plain path");
        assert_eq!((write(word), check(word)), (DONE, DONE));
        fs::write(folder.join("printed.survey"), "resolve 8\n").expect("a changed file");
        fs::write(folder.join("stray"), "").expect("a file too many");
        fs::write(folder.join(PAGE), "`printed`").expect("a page");
        fs::remove_file(folder.join("alias.nix")).expect("a file less");
        let faults = faults(&folder).expect("the folder can be read");
        fs::remove_dir_all(&folder).expect("the folder goes");
        let seen = [
            "alias.nix is missing",
            "printed.survey differs",
            "stray belongs to no example",
        ];
        assert!(seen.iter().all(|fault| faults.contains(&fault.to_string())));
        assert!(faults.contains(&"README.md lacks `alias`".to_string()));
        assert!(!faults.contains(&"README.md lacks `printed`".to_string()));
    }
}
