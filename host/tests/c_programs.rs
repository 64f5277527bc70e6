//! Compiles C programs against `relay.h` and the archive, as C and as C++, runs
//! them and compares what they print.

use relay::{Edition, Refusal, LISTING_NUMBERS, VERSION, VIEW_NUMBERS};
use relay::{MAX_ELEMENTS, MAX_LENGTH, MAX_LEVELS, MAX_SECTIONS, MAX_SEQUENCES};
use std::fs;
use std::path::{Path, PathBuf};
use std::process::Command;

fn host() -> &'static Path {
    Path::new(env!("CARGO_MANIFEST_DIR"))
}

/// The compilers, each with the oldest standard that the header is for.
const COMPILERS: [(&str, &str); 2] = [("gcc", "c99"), ("g++", "c++11")];

/// Compiles a C file of the host folder; answers the program.
fn compile(compiler: &str, standard: &str, source: &str) -> PathBuf {
    let name = format!("{}-{standard}", source.replace('/', "-"));
    let program = Path::new(env!("CARGO_TARGET_TMPDIR")).join(name);
    let output = Command::new(compiler)
        .arg(format!("-std={standard}"))
        .args(["-pedantic", "-Wall", "-Wextra", "-Werror"])
        .arg("-I")
        .arg(host())
        .arg(host().join(source))
        .arg(env!("RELAY_ARCHIVE"))
        .arg("-o")
        .arg(&program)
        .output()
        .unwrap_or_else(|fault| panic!("{compiler} does not run: {fault}"));
    assert!(
        output.status.success(),
        "{compiler} {source}:\n{}",
        String::from_utf8_lossy(&output.stderr)
    );
    program
}

/// Runs a program to its end; answers what it printed.
fn run(program: &Path) -> String {
    let output = Command::new(program).output().expect("the program runs");
    assert!(output.status.success(), "{}", output.status);
    String::from_utf8(output.stdout).expect("text")
}

#[test]
fn the_example_prints_what_it_should() {
    let expected = fs::read_to_string(host().join("examples/relay.expected")).expect("the file");
    for (compiler, standard) in COMPILERS {
        let printed = run(&compile(compiler, standard, "examples/relay.c"));
        assert_eq!(printed, expected, "{compiler}");
    }
}

/// What the header's functions shall say of a body behind some of so many
/// sequences: where it stands, and where each sequence does, up to two too many
/// of a full message.
fn sections(behind: usize, count: usize) -> String {
    let mut line = format!("behind {behind} of {count}: body {behind}, sequences");
    for number in 0..=MAX_SECTIONS {
        let place = match number {
            _ if number >= count => -1,
            _ if number < behind => number as i64,
            _ => number as i64 + 1,
        };
        line += &format!(" {place}");
    }
    line
}

#[test]
fn the_header_says_what_the_crate_says() {
    let mut expected = vec![
        format!("version {VERSION}"),
        format!("max_length {MAX_LENGTH}"),
        format!("max_elements {MAX_ELEMENTS}"),
        format!("max_levels {MAX_LEVELS}"),
        format!("max_sequences {MAX_SEQUENCES}"),
        format!("max_sections {MAX_SECTIONS}"),
        format!("house_bits {}", Edition::HOUSE.bits),
        format!("view_numbers {VIEW_NUMBERS}"),
    ];
    let view = [
        "length",
        "request_id",
        "response_to",
        "flags",
        "elements",
        "entries",
    ];
    let entry = [
        "kind",
        "identifier_start",
        "identifier_length",
        "start",
        "length",
        "documents",
    ];
    let places = |fields: &[&str; 6]| {
        let places = fields.iter().enumerate();
        places
            .map(|(place, name)| format!("{name} {place}"))
            .collect::<Vec<_>>()
    };
    expected.extend(places(&view));
    expected.push("second entry 11".to_string());
    expected.extend(places(&entry));
    expected.push("kinds 0 1 -1".to_string());
    expected.push(format!("listing_numbers {LISTING_NUMBERS}"));
    expected.extend(["version 0", "messages 1"].map(String::from));
    for count in 0..=MAX_SEQUENCES {
        for behind in 0..=count {
            expected.push(sections(behind, count));
        }
    }
    for number in 1..=40 {
        let refusal = Refusal::new(number, 47_999_999);
        let words = refusal.map_or("no such refusal", |refusal| refusal.words());
        expected.push(format!("{number} at 47999999: {words}"));
    }
    expected.extend([1, (1 << 32) + 5_u64].map(|line| format!("line {line}")));
    for (compiler, standard) in COMPILERS {
        let printed = run(&compile(compiler, standard, "tests/c/header.c"));
        let printed: Vec<&str> = printed.lines().collect();
        assert_eq!(printed, expected, "{compiler}");
    }
}
