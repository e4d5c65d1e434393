//! Finds libhead.a and links it. The variable HEAD_LIB names it; without, it is looked for where
//! the project's build puts it.

use std::env;
use std::path::{Path, PathBuf};

fn main() {
    println!("cargo::rerun-if-changed=build.rs");
    println!("cargo::rerun-if-env-changed=HEAD_LIB");
    // The scripts set it, so that another library is linked anew even where its time is older.
    println!("cargo::rerun-if-env-changed=HEAD_LIB_SUM");
    let library = library();
    println!("cargo::rerun-if-changed={}", library.display());
    match folder(&library) {
        Ok(folder) => {
            println!("cargo::rustc-link-search=native={}", folder.display());
            println!("cargo::rustc-link-lib=static=head");
        }
        Err(problem) => println!("cargo::error={}: {problem}", library.display()),
    }
}

fn library() -> PathBuf {
    match env::var_os("HEAD_LIB") {
        Some(path) => path.into(),
        None => {
            let here = env::var_os("CARGO_MANIFEST_DIR").expect("cargo sets CARGO_MANIFEST_DIR");
            Path::new(&here).join("../../target/staticlib/libhead.a")
        }
    }
}

/// The folder that the linker searches, if the library can be linked from there.
fn folder(library: &Path) -> Result<&Path, &'static str> {
    if !library.is_absolute() {
        return Err("HEAD_LIB must be an absolute path");
    }
    if !library.is_file() {
        return Err("no such library; build it first, or set HEAD_LIB to the path of libhead.a");
    }
    match library.parent() {
        Some(folder) if library.ends_with("libhead.a") => Ok(folder),
        _ => Err("the library's file must be named libhead.a"),
    }
}
