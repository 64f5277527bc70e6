//! Measures `bson_validate` of libbson, where it is installed.

use crate::mix::Item;
use std::path::Path;
use std::process::Command;
use std::{env, fs};

const INCLUDE: &str = "/usr/include/libbson-1.0";

/// Prints the times of libbson beside the library's times to read.
pub fn compare(items: &[Item], reads: &[f64]) {
    if !Path::new(INCLUDE).is_dir() {
        println!("libbson is not installed and is left out (apt-get install libbson-dev).");
        return;
    }
    match times(items) {
        Ok(times) => print(items, reads, &times),
        Err(fault) => println!("libbson is left out: {fault}"),
    }
}

fn print(items: &[Item], reads: &[f64], times: &[f64]) {
    println!(
        "{:<14}{:>7}  {:>14}{:>10}{:>20}",
        "message", "bytes", "bson_validate", "read", "read/bson_validate"
    );
    for ((item, read), validate) in items.iter().zip(reads).zip(times) {
        let (name, length, ratio) = (item.name, item.all_documents.len(), read / validate);
        println!("{name:<14}{length:>7}  {validate:>14.1}{read:>10.1}{ratio:>20.2}");
    }
}

/// Builds and runs the C program on the documents of each message.
fn times(items: &[Item]) -> Result<Vec<f64>, String> {
    let folder = env::temp_dir().join(format!("relay-bench-{}", std::process::id()));
    fs::create_dir_all(&folder).map_err(|fault| fault.to_string())?;
    let result = build(&folder).and_then(|()| {
        items
            .iter()
            .map(|item| time(&folder, &item.all_documents))
            .collect()
    });
    let _ = fs::remove_dir_all(&folder);
    result
}

fn build(folder: &Path) -> Result<(), String> {
    let source = Path::new(env!("CARGO_MANIFEST_DIR")).join("bench/validate.c");
    let mut gcc = Command::new("gcc");
    gcc.args(["-std=c99", "-O2", "-I", INCLUDE])
        .arg(source)
        .args(["-lbson-1.0", "-o"])
        .arg(folder.join("validate"));
    run(&mut gcc).map(drop)
}

fn time(folder: &Path, documents: &[u8]) -> Result<f64, String> {
    let file = folder.join("documents");
    fs::write(&file, documents).map_err(|fault| fault.to_string())?;
    let printed = run(Command::new(folder.join("validate")).arg(&file))?;
    let time = printed.trim();
    time.parse()
        .map_err(|_| format!("no number of nanoseconds: {time}"))
}

fn run(command: &mut Command) -> Result<String, String> {
    let output = command.output().map_err(|fault| fault.to_string())?;
    if output.status.success() {
        Ok(String::from_utf8_lossy(&output.stdout).into_owned())
    } else {
        Err(String::from_utf8_lossy(&output.stderr).into_owned())
    }
}
