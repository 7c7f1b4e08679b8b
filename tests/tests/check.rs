//! The program `check`, run as a ward clerk runs it: on the examples, which say what it prints, and on inputs of the
//! length that it reads at most.

use std::fs;
use std::io::Write;
use std::path::{Path, PathBuf};
use std::process::{Command, Stdio};
use std::sync::Mutex;

fn file(name: &str) -> PathBuf {
    Path::new(env!("CARGO_MANIFEST_DIR")).join("..").join(name)
}

fn read(name: &str) -> Vec<u8> {
    fs::read(file(name)).unwrap_or_else(|error| panic!("{name}: {error}"))
}

/// `./check` proves and builds the program where that is needed: one at a time.
static BUILD: Mutex<()> = Mutex::new(());

/// What the program prints. It may end before it has read all of a long input.
fn printed(input: &[u8]) -> String {
    let _one = BUILD.lock();
    let mut program =
        Command::new(file("check")).stdin(Stdio::piped()).stdout(Stdio::piped()).spawn().expect("./check");
    let _ = program.stdin.take().unwrap().write_all(input);
    let output = program.wait_with_output().unwrap();
    assert!(output.status.success(), "./check ended with {}", output.status);
    String::from_utf8(output.stdout).unwrap()
}

fn lines(code: &str, instant: &str, place: &str) -> String {
    format!("code={code}\ninstant={instant}\nplace={place}\n")
}

/// A row of the examples' table: the file's name, and the numbers in the last column.
fn example(row: &str) -> Option<(&str, String)> {
    let mut cells = row.trim_matches('|').split(" | ");
    let name = cells.next()?.trim().strip_prefix('`')?.strip_suffix('`')?;
    let mut numbers = cells.last()?.trim().split(", ");
    Some((name, lines(numbers.next()?, numbers.next()?, numbers.next()?)))
}

#[test]
fn the_examples_print_what_their_table_says() {
    let table = String::from_utf8(read("examples/README.md")).unwrap();
    let examples: Vec<_> = table.lines().filter_map(example).collect();
    let texts = fs::read_dir(file("examples")).unwrap().count() - 1;
    assert_eq!(examples.len(), texts, "a row for each text");
    for (name, said) in examples {
        assert_eq!(printed(&read(&format!("examples/{name}"))), said, "{name}");
    }
}

/// "at most 32,768 bytes (longer: 31, place 32768)": up to there, text after the last line counts.
#[test]
fn a_longer_input_is_not_looked_at() {
    let history = read("examples/H.txt");
    let extra = history.len().to_string();
    for (length, place) in [(32_768, extra.as_str()), (32_769, "32768"), (100_000, "32768")] {
        let mut input = history.clone();
        input.resize(length, b'x');
        assert_eq!(printed(&input), lines("31", "0", place), "{length} bytes");
    }
}
