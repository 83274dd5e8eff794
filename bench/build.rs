// Links libkuthbareen.a, and says what to run first where it is missing.
use std::path::Path;
use std::process::exit;

const ARCHIVES: &str = concat!(env!("CARGO_MANIFEST_DIR"), "/../target/staticlib");

fn main() {
    let archive = Path::new(ARCHIVES).join("libkuthbareen.a");
    println!("cargo:rerun-if-changed={}", archive.display());
    if !archive.is_file() {
        eprintln!("target/staticlib/libkuthbareen.a is missing: run examples/build first");
        exit(1);
    }
    println!("cargo:rustc-link-search=native={ARCHIVES}");
    println!("cargo:rustc-link-lib=static=kuthbareen");
}
