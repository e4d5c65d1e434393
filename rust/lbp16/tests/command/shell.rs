//! The man page and the completion have every part and option that the command has, and no other.

use crate::common::{lbp16, run};
use std::collections::BTreeSet;
use std::process::Command;

const MAN: &str = include_str!("../../../../man/lbp16.1");
const COMPLETION: &str = concat!(env!("CARGO_MANIFEST_DIR"), "/../../completion/lbp16.bash");

/// What stands behind blanks, brackets or commas, with dashes before it.
fn options(text: &str) -> BTreeSet<String> {
    let words = text.split(|letter: char| !(letter.is_ascii_alphanumeric() || letter == '-'));
    let option = |word: &&str| word.starts_with("--") && word.len() > 2 || *word == "-o";
    words.filter(option).map(str::to_string).collect()
}

fn help(words: &[&str]) -> String {
    String::from_utf8(lbp16(words, b"").out).unwrap()
}

fn parts() -> Vec<String> {
    let help = help(&["--help"]);
    let lines = help.lines().filter_map(|line| line.strip_prefix("  "));
    lines
        .map(|line| line.split(' ').next().unwrap().to_string())
        .collect()
}

/// What bash offers for the last of these words.
fn completed(words: &str) -> BTreeSet<String> {
    // Outside of a completion there are no options of one.
    let script = "compopt() { :; }; . \"$0\"; COMP_WORDS=($1); COMP_CWORD=$((${#COMP_WORDS[@]} - 1)); \
                  [ \"$2\" ] && COMP_WORDS+=('') && ((COMP_CWORD += 1)); _lbp16; printf '%s\\n' \"${COMPREPLY[@]}\"";
    let more = if words.ends_with(' ') { "yes" } else { "" };
    let output = run(Command::new("bash").args(["-c", script, COMPLETION, words, more]));
    assert_eq!(String::from_utf8_lossy(&output.stderr), "");
    let out = String::from_utf8(output.stdout).unwrap();
    out.lines()
        .filter(|line| !line.is_empty())
        .map(str::to_string)
        .collect()
}

#[test]
fn completion_of_parts_and_options() {
    let mut first: BTreeSet<String> = parts().into_iter().collect();
    first.extend(["--help", "--version"].map(str::to_string));
    assert_eq!(completed("lbp16 "), first);
    assert_eq!(
        completed("lbp16 p").into_iter().collect::<Vec<_>>(),
        ["packets", "panel", "play"]
    );
    for part in parts() {
        let mut expected = options(&help(&[&part, "--help"]));
        expected.insert("--help".to_string());
        if expected.contains("-o") {
            expected.insert("--output".to_string());
        }
        assert_eq!(completed(&format!("lbp16 {part} -")), expected, "{part}");
    }
}

#[test]
fn completion_of_values() {
    let here = env!("CARGO_MANIFEST_DIR");
    let file = format!("{here}/Cargo.toml");
    for before in ["compile", "compile -o", "judge --store", "serve --log"] {
        let offered = completed(&format!("lbp16 {before} {here}/Carg"));
        assert!(offered.iter().eq([&file]), "{before}: {offered:?}");
    }
    let spaces = completed("lbp16 guard --protect ");
    assert_eq!(
        spaces.into_iter().collect::<Vec<_>>(),
        ["0:", "2:", "6:", "7:"]
    );
    assert!(completed("lbp16 play --tries ").is_empty());
}

#[test]
fn man_page_of_parts_and_options() {
    let page = MAN
        .replace("\\-", "-")
        .replace("\\fR", " ")
        .replace("\\fB", " ");
    let mut all = options(&help(&["--help"]));
    all.insert("--output".to_string());
    for part in parts() {
        assert!(page.contains(&format!("\n.B {part}\n")), "{part}");
        assert!(
            page.contains(&format!(" lbp16 {part} ")) || page.contains(&format!("lbp16 {part} "))
        );
        all.extend(options(&help(&[&part, "--help"])));
    }
    assert_eq!(options(&page), all);
}

#[test]
fn man_page_of_refusals() {
    // Every number that a part may end with has a row.
    let page: Vec<&str> = MAN.lines().collect();
    let rows = page.iter().filter_map(|line| line.strip_suffix("|T{"));
    let numbers: BTreeSet<u32> = rows
        .flat_map(|row| row.split(", ").filter_map(|number| number.parse().ok()))
        .collect();
    let other = [13, 26, 27, 31, 32, 33, 34, 35, 40, 43, 44];
    for number in (1..100).filter(|number| head::sentence(*number) != "no refusal has this number")
    {
        assert_eq!(
            numbers.contains(&number),
            !other.contains(&number),
            "{number}"
        );
    }
}
