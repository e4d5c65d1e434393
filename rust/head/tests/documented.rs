//! Every public item of the binding has an example in its doc comment; `cargo test` runs them.

use std::fs;
use std::path::Path;

const ITEMS: [&str; 6] = ["fn ", "struct ", "enum ", "const ", "mod ", "trait "];

/// Whether a line declares a public item. The exports' macro makes its functions public, and a file's own comment is
/// that of its module.
fn declares(line: &str) -> bool {
    let line = line.trim_start();
    let exported = line.starts_with("fn ") && line.contains(" = head_");
    let file = line.starts_with("pub mod ") && line.ends_with(';');
    let public = line
        .strip_prefix("pub ")
        .is_some_and(|rest| ITEMS.iter().any(|item| rest.starts_with(item)));
    exported || public && !file && !line.contains("$name")
}

/// The lines that declare a public item without an example above, in a file.
fn bare(text: &str) -> Vec<String> {
    let (mut found, mut example) = (Vec::new(), false);
    for line in text.lines() {
        let start = line.trim_start();
        if start.starts_with("///") {
            example |= start.contains("```");
        } else if declares(line) && !example {
            found.push(line.to_string());
        }
        if !start.starts_with("///") && !start.starts_with("#[") {
            example = false;
        }
    }
    found
}

#[test]
fn each_item_has_an_example() {
    let folder = Path::new(env!("CARGO_MANIFEST_DIR")).join("src");
    let mut files = 0;
    for file in fs::read_dir(folder).unwrap() {
        let path = file.unwrap().path();
        let text = fs::read_to_string(&path).unwrap();
        let name = path.file_name().unwrap().to_string_lossy().into_owned();
        assert_eq!(bare(&text), [""; 0], "in {name}");
        assert!(
            name == "raw.rs" || text.contains("//! ```\n"),
            "{name} has no example for its module"
        );
        files += 1;
    }
    assert!(files > 10);
}

#[test]
fn an_item_without_is_found() {
    assert_eq!(bare("/// Does it.\n#[inline]\npub fn it() {}\n").len(), 1);
    assert_eq!(bare("/// One.\npub const ONE: u8 = 1;\n").len(), 1);
    assert_eq!(
        bare("    /// Does it.\n    fn it = head_it(by x: u8);\n").len(),
        1
    );
    assert_eq!(
        bare("/// ```\n/// ```\npub struct A {\n    b: u8,\n}\npub struct B {\n").len(),
        1
    );
}
