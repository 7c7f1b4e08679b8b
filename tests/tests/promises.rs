//! The map of promises, docs/PROMISES.md, names what there is: each definition and theorem stands in the file that is
//! named with it, and each must-fail edit exists.

use std::fs;
use std::path::{Path, PathBuf};

fn crates() -> PathBuf {
    Path::new(env!("CARGO_MANIFEST_DIR")).join("../crates")
}

/// What stands between backquotes in the tables and the text.
fn quoted(text: &str) -> Vec<&str> {
    text.split('`').skip(1).step_by(2).collect()
}

/// The definitions, or the laws, of a crate's file.
fn theory(of: &str) -> Option<String> {
    let (name, file) = of.split_once('/')?;
    let found = |folder: &str| fs::read_to_string(crates().join(format!("{name}/{folder}/{file}.antt"))).ok();
    let both = [found("specs"), found("proofs")].into_iter().flatten().collect::<String>();
    (!both.is_empty()).then_some(both)
}

/// Whether a file declares a name, as a definition or as a part of one.
fn declares(text: &str, name: &str) -> bool {
    text.lines().any(|line| {
        let line = line.trim_start();
        let line = line.strip_prefix("abbrev ").or(line.strip_prefix("unfoldable ")).unwrap_or(line);
        let line = line.strip_prefix("pub ").unwrap_or(line);
        let line = line.strip_prefix("record ").or(line.strip_prefix("data ")).unwrap_or(line);
        line.strip_prefix(name).map_or(false, |rest| rest.starts_with(' '))
    })
}

/// The names after a file's, and the parts that are named with a dot.
fn names(list: &str) -> impl Iterator<Item = &str> {
    list.split(", ").flat_map(|name| name.split(" .")).filter(|name| !name.starts_with(".."))
}

#[test]
fn what_the_map_names_is_there() {
    let map = fs::read_to_string(crates().join("../docs/PROMISES.md")).expect("docs/PROMISES.md");
    let (mut cited, mut edits) = (0, 0);
    for span in quoted(&map) {
        if let Some((of, list)) = span.split_once(": ") {
            let file = if of == "Demands" { "bindlewort/Demands" } else { of };
            let text = theory(file).unwrap_or_else(|| panic!("`{span}`: there is no such file"));
            for name in names(list) {
                assert!(declares(&text, name), "`{span}`: {file} does not declare {name}");
                cited += 1;
            }
        } else if let Some((name, edit)) = span.split_once('/') {
            let folder = crates().join(name);
            if folder.is_dir() && !edit.contains('/') && !edit.contains(char::is_uppercase) {
                assert!(folder.join(format!("must-fail/{edit}.edit")).is_file(), "`{span}`: there is no such edit");
                edits += 1;
            }
        }
    }
    assert!(cited > 100 && edits > 20, "{cited} names and {edits} edits were found");
}
