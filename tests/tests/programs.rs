//! The header and the library as programs meet them: compiled with every warning an error, linked, run. And the
//! examples, which the readme shows.

use std::env;
use std::fs;
use std::path::{Path, PathBuf};
use std::process::Command;

/// What a program writes to standard output, where it succeeds.
fn output(command: &mut Command) -> String {
    let output = command.output().unwrap_or_else(|error| panic!("{command:?}: {error}"));
    let said = String::from_utf8_lossy(&output.stdout);
    assert!(output.status.success(), "{command:?}\n{said}{}", String::from_utf8_lossy(&output.stderr));
    said.into_owned()
}

/// A file of the repository.
fn file(name: &str) -> PathBuf {
    Path::new(env!("CARGO_MANIFEST_DIR")).join("..").join(name)
}

/// Compiles a program with the header and the library, and runs it.
fn compiled_and_run(compiler: &str, standard: &str, source: &str) -> String {
    let source = file(source);
    let program = Path::new(env!("CARGO_TARGET_TMPDIR")).join(source.file_name().unwrap()).with_extension(standard);
    let mut command = Command::new(compiler);
    command.args(["-Wall", "-Wextra", "-Werror", "-pedantic"]).arg(format!("-std={standard}"));
    command.arg("-I").arg(file("include"));
    command.arg("-o").arg(&program);
    command.arg(source).arg(env!("BINDLEWORT_ARCHIVE"));
    output(&mut command);
    output(&mut Command::new(&program))
}

fn read(name: &str) -> String {
    fs::read_to_string(file(name)).unwrap_or_else(|error| panic!("{name}: {error}"))
}

/// Whether the readme has the whole file as a block of its language.
fn shown(example: &str, language: &str) -> bool {
    read("README.md").contains(&format!("\n```{language}\n{}```\n", read(example)))
}

/// The six kinds and the eighteen codes have one name and one number in C and in Rust.
#[test]
fn the_wrapper_has_the_names_of_the_header() {
    let wrapper = read("tests/src/bindlewort.rs");
    let header = read("include/bindlewort.h");
    let named = header.lines().filter_map(|line| line.trim().strip_prefix("BW_")?.split_once(" = "));
    let mut found = 0;
    for (name, rest) in named {
        let number: String = rest.chars().take_while(char::is_ascii_digit).collect();
        let line = format!("    pub const {name}: u32 = {number};\n");
        assert!(wrapper.contains(&line), "the wrapper does not have BW_{name} = {number}");
        found += 1;
    }
    assert_eq!(found, 6 + 18);
}

#[test]
fn a_c_program_calls_the_library() {
    compiled_and_run("gcc", "c99", "tests/c/calls.c");
}

#[test]
fn a_cpp_program_calls_the_library() {
    compiled_and_run("g++", "c++11", "tests/c/calls.cc");
}

/// No call takes more stack on this machine than the header says. The program measures trees of 20, 1,000 and 1,023
/// levels.
#[test]
fn the_stack_is_what_the_header_says() {
    let header = read("include/bindlewort.h");
    let column = if cfg!(target_arch = "x86_64") { 0 } else { 1 };
    let stated = |call: &str| -> u32 {
        let row = header.lines().find_map(|line| line.strip_prefix(" *   ")?.strip_prefix(call)?.strip_prefix("  "));
        let bytes = row.and_then(|row| row.split_whitespace().nth(column)?.replace(',', "").parse().ok());
        bytes.unwrap_or_else(|| panic!("the header does not say what {call} takes"))
    };
    let printed = compiled_and_run("gcc", "c99", "tests/c/stack.c");
    for line in printed.lines() {
        let numbers: Vec<u32> = line.split(' ').map(|number| number.parse().unwrap()).collect();
        let snapshot = format!("bw_snapshot, tree of {} levels", if numbers[0] == 20 { "20" } else { "1,023" });
        let calls = ["bw_check", &snapshot, "bw_repair", "bw_write_text", "bw_read_text"];
        for (call, taken) in calls.iter().zip(&numbers[1..]) {
            assert!(*taken <= stated(call), "{call}: {taken} bytes are taken, and the header says {}", stated(call));
        }
    }
    assert_eq!(printed.lines().count(), 3);
}

#[test]
fn the_example_in_c() {
    assert_eq!(compiled_and_run("gcc", "c99", "tests/examples/check.c"), "16 100 0\n");
    assert!(shown("tests/examples/check.c", "c"), "the readme shows another tests/examples/check.c");
}

/// Cargo compiles the examples of a package with its tests, into a folder beside theirs.
#[test]
fn the_example_in_rust() {
    let test = env::current_exe().unwrap();
    let program = test.parent().and_then(Path::parent).unwrap().join("examples/check");
    assert_eq!(output(&mut Command::new(program)), "16 100 0\n");
    assert!(shown("tests/examples/check.rs", "rust"), "the readme shows another tests/examples/check.rs");
}
