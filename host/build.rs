//! Links the archive `librelay_c.a` from the folder named by RELAY_LIB_DIR,
//! or from ../crates/relay_c/out where the variable is not set.

use std::env;
use std::path::PathBuf;

fn main() {
    let host = PathBuf::from(env::var_os("CARGO_MANIFEST_DIR").expect("set by cargo"));
    let folder = match env::var_os("RELAY_LIB_DIR") {
        Some(folder) => host.join(folder),
        None => host.join("../crates/relay_c/out"),
    };
    let archive = folder.join("librelay_c.a");
    println!("cargo:rerun-if-env-changed=RELAY_LIB_DIR");
    println!("cargo:rerun-if-changed={}", archive.display());
    assert!(
        archive.is_file(),
        "{} is missing: make it with `rt lib` in crates/relay_c, or name its folder in RELAY_LIB_DIR",
        archive.display()
    );
    println!("cargo:rustc-link-search=native={}", folder.display());
    println!("cargo:rustc-link-lib=static=relay_c");
    // For the tests that compile C programs against the same archive.
    println!("cargo:rustc-env=RELAY_ARCHIVE={}", archive.display());
}
