//! The readme lists the files to read, and no others: what the promises of the public calls are made of, and what the
//! theorems say of them.

use std::collections::BTreeSet;
use std::fs;
use std::path::Path;

const CALLS: &str = "crates/bindlewort/src/lib.rt";
const EXPORTS: &str = "crates/bindlewort_c/src/lib.rt";
const THEOREMS: &str = "crates/bindlewort/proofs/Demands.antt";

/// A file of the repository.
fn read(name: &str) -> String {
    let path = Path::new(env!("CARGO_MANIFEST_DIR")).join("..").join(name);
    fs::read_to_string(path).unwrap_or_else(|error| panic!("{name}: {error}"))
}

/// The file of definitions that a line takes names from: `use Rattle.tables.specs.Rules.{..}` does so from
/// crates/tables/specs/Rules.antt. What is declared is in the code, and the words of std are the kit's.
fn cited(line: &str) -> Option<String> {
    let line = line.strip_prefix("ghost ").unwrap_or(line);
    let mut parts = line.strip_prefix("use Rattle.")?.split('.');
    let name = parts.next()?;
    let folder = parts.next()?;
    let file = parts.next()?.split([' ', ';']).next()?;
    (name != "std" && folder == "specs" && file != "declared").then(|| format!("crates/{name}/specs/{file}.antt"))
}

/// A file and all the files of definitions that it reaches.
fn reached(from: &str) -> BTreeSet<String> {
    let mut found = BTreeSet::from([from.to_string()]);
    let mut open = vec![from.to_string()];
    while let Some(name) = open.pop() {
        for file in read(&name).lines().filter_map(cited) {
            if found.insert(file.clone()) {
                open.push(file);
            }
        }
    }
    found
}

/// The files of a list whose lines are `- [crates/..](crates/..): what it says`.
fn listed(text: &str) -> BTreeSet<String> {
    let mut found = BTreeSet::new();
    for item in text.lines().filter_map(|line| line.strip_prefix("- [")) {
        let (name, rest) = item.split_once("](").expect("a link");
        assert!(
            rest.starts_with(&format!("{name}): ")),
            "{item}: the link is to another file, or nothing is said of it"
        );
        assert!(found.insert(name.to_string()), "{name} is listed twice");
    }
    found
}

/// A list has just the files that are to be read.
fn same_files(list: &BTreeSet<String>, wanted: &BTreeSet<String>) {
    let missing: Vec<_> = wanted.difference(list).collect();
    let superfluous: Vec<_> = list.difference(wanted).collect();
    assert!(missing.is_empty() && superfluous.is_empty(), "missing: {missing:?}, superfluous: {superfluous:?}");
}

fn lines(name: &str) -> usize {
    read(name).lines().count()
}

#[test]
fn the_readme_lists_what_is_to_be_read() {
    let readme = read("README.md");
    let section =
        readme.split("\n## ").find(|part| part.starts_with("What to read\n")).expect("a section 'What to read'");
    let (promises, theorems) = section.split_once("For the theorems").expect("a list 'For the theorems'");
    let promised = reached(CALLS);
    same_files(&listed(promises), &promised);
    same_files(&listed(theorems), &reached(THEOREMS).difference(&promised).cloned().collect());
    let first = promises.lines().find(|line| line.starts_with("- [")).unwrap_or_default();
    assert!(first.starts_with(&format!("- [{CALLS}]")), "the public calls are not the first to be read");
    let (calls, theorems) = (lines(CALLS), lines(THEOREMS));
    let definitions: usize = promised.iter().filter(|name| *name != CALLS).map(|name| lines(name)).sum();
    println!("{calls} lines of calls, {definitions} of their definitions, {theorems} of theorems");
    assert!(calls <= 150 && definitions <= 900 && theorems <= 200, "there is too much to read");
}

/// What each public call of a file takes, gives and promises: the text from its name to its body, however laid out.
fn promised(file: &str) -> Vec<String> {
    let text = read(file);
    let calls = text.split("fn bw_").skip(1).map(|call| call.split("\n{").next().unwrap_or_default());
    calls.map(|call| call.split_whitespace().collect::<String>().replace(",)", ")")).collect()
}

/// The library for C exports the public calls, each with its whole promise.
#[test]
fn the_exports_promise_what_the_calls_promise() {
    let calls = promised(CALLS);
    assert_eq!(calls, promised(EXPORTS));
    assert_eq!(calls.len(), 5);
}
