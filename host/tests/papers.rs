//! Holds the table of refusals in the repository's README to the crate.

use relay::Refusal;
use std::fs;
use std::path::Path;

#[test]
fn the_readme_gives_each_number_the_crate_s_words() {
    let readme = Path::new(env!("CARGO_MANIFEST_DIR")).join("../README.md");
    let text = fs::read_to_string(readme).expect("the file");
    let (_, section) = text.split_once("\n## Refusals\n").expect("the section");
    let section = section.split("\n## ").next().expect("its text");

    // The first two lines of a table are its head.
    let table = section.lines().filter(|line| line.starts_with('|')).skip(2);
    let rows: Vec<String> = table
        .map(|row| {
            let cells: Vec<&str> = row.split('|').map(str::trim).collect();
            format!("{} {}", cells[1], cells[2])
        })
        .collect();
    let expected: Vec<String> = (1..=25)
        .chain([27, 28, 38])
        .map(|number| {
            let refusal = Refusal::new(number, 0).expect("a refusal");
            format!("{number} {}", refusal.words())
        })
        .collect();
    assert_eq!(rows, expected);
}
