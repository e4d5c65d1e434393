//! Says which version this is, and which kit proved the library.

use std::env;
use std::fs;
use std::path::Path;

fn main() {
    println!("cargo::rerun-if-changed=build.rs");
    let version = first_line("VERSION").or(env::var("CARGO_PKG_VERSION").ok());
    let kit = first_line(".ci/kit");
    println!(
        "cargo::rustc-env=LBP16_VERSION={}",
        version.unwrap_or_default()
    );
    println!(
        "cargo::rustc-env=LBP16_KIT={}",
        kit.unwrap_or("a kit that was not named".into())
    );
}

/// Of a file at the top of the repository, if it is there.
fn first_line(name: &str) -> Option<String> {
    let path = Path::new("../..").join(name);
    // Also where it is not there yet, so that it is seen when it comes.
    println!("cargo::rerun-if-changed={}", path.display());
    let text = fs::read_to_string(&path).ok()?;
    text.lines().next().map(|line| line.trim().to_string())
}
