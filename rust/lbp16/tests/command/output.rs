//! What `-o` promises: the file is the old one or the whole new one, and nothing is left beside it.

use crate::common::{file, filled, lbp16, says};
use std::fs::{self, Permissions};
use std::os::unix::fs::{symlink, PermissionsExt};
use std::path::PathBuf;
use std::process::Command;

const LIST: &[u8] = b"RD\0\0\x04\0";
const PACKETS: &[u8] = b"LB\x04\0\x81\x42\x04\0";

/// A folder of this test alone with a file in it, by both names.
fn folder(name: &str) -> (PathBuf, String) {
    let folder = file(name);
    let _ = fs::remove_dir_all(&folder);
    fs::create_dir(&folder).expect("a folder");
    let old = folder.join("show.lb");
    fs::write(&old, b"old").expect("a file");
    (folder, old.to_str().expect("a plain name").to_string())
}

fn names(folder: &PathBuf) -> Vec<String> {
    let entries = fs::read_dir(folder).expect("the folder");
    entries
        .map(|entry| entry.unwrap().file_name().into_string().unwrap())
        .collect()
}

#[test]
fn a_good_list_replaces_the_file() {
    let (folder, old) = folder("output-good");
    fs::set_permissions(&old, Permissions::from_mode(0o640)).unwrap();
    for words in [["compile", "-o", &old], ["compile", "--output", &old]] {
        let ended = lbp16(&words, LIST);
        assert_eq!((ended.exit, ended.out.len(), &ended.err[..]), (0, 0, ""));
        assert_eq!(fs::read(&old).unwrap(), PACKETS);
    }
    assert_eq!(
        fs::metadata(&old).unwrap().permissions().mode() & 0o777,
        0o640
    );
    assert_eq!(names(&folder), ["show.lb"]);
    let new = folder.join("new.lb");
    let word = format!("-o{}", new.display());
    assert_eq!(lbp16(&["compile", &word], LIST).exit, 0);
    assert_eq!(fs::read(new).unwrap(), PACKETS);
}

#[test]
fn a_refused_list_leaves_the_file() {
    let (folder, old) = folder("output-refused");
    for part in ["asm", "dis", "compile", "tight"] {
        let ended = lbp16(&[part, "-o", &old], b"RD\0\0");
        assert_eq!((ended.exit, ended.out.len()), (1, 0));
        assert_eq!(fs::read(&old).unwrap(), b"old");
        assert_eq!(names(&folder), ["show.lb"]);
    }
}

#[test]
fn a_full_disk_leaves_the_file() {
    let (folder, old) = folder("output-full");
    let list = filled("output-long.cue", &b"WR\0\0\x08\0\x01\0\0\0".repeat(1_000));
    // No file may grow past 1,024 bytes, and that is an error, not a signal.
    let command = "trap '' XFSZ; ulimit -f 2; exec \"$0\" compile \"$1\" -o \"$2\"";
    let words = ["-c", command, env!("CARGO_BIN_EXE_lbp16"), &list, &old];
    let output = Command::new("sh").args(words).output().expect("a shell");
    let said = format!("lbp16 compile: cannot write {old}: File too large\n");
    assert_eq!(String::from_utf8_lossy(&output.stderr), said);
    assert_eq!(output.status.code(), Some(2));
    assert_eq!(fs::read(&old).unwrap(), b"old");
    assert_eq!(names(&folder), ["show.lb"]);
}

#[test]
fn a_folder_that_is_not_there() {
    let said = "lbp16 compile: cannot write /nowhere/show.lb: No such file or directory\n";
    says(&["compile", "-o", "/nowhere/show.lb"], LIST, 2, said);
}

#[test]
fn a_link_stays_one() {
    let (folder, old) = folder("output-link");
    let link = folder.join("link.lb");
    symlink("show.lb", &link).unwrap();
    let ended = lbp16(&["compile", "-o", link.to_str().unwrap()], LIST);
    assert_eq!(ended.exit, 0);
    assert!(fs::symlink_metadata(&link).unwrap().is_symlink());
    assert_eq!(fs::read(old).unwrap(), PACKETS);
}

#[test]
fn what_is_no_plain_file_is_written_as_it_stands() {
    assert_eq!(lbp16(&["compile", "-o", "/dev/null"], LIST).exit, 0);
    let said = "lbp16 compile: cannot write /dev/full: No space left on device\n";
    says(&["compile", "-o", "/dev/full"], LIST, 2, said);
    let ended = lbp16(&["compile", "-o", "/dev/stdout"], LIST);
    assert_eq!((ended.exit, &ended.out[..]), (0, PACKETS));
}

/// Under a terminal that `script` makes.
fn on_a_terminal(words: &str) -> (i32, String) {
    let command = format!("{} {words}", env!("CARGO_BIN_EXE_lbp16"));
    let output = Command::new("script")
        .args(["-qec", &command, "/dev/null"])
        .output()
        .expect("script");
    (
        output.status.code().unwrap(),
        String::from_utf8_lossy(&output.stdout).into_owned(),
    )
}

#[test]
fn bytes_are_not_put_on_a_terminal_unless_asked() {
    let list = filled("output-terminal.cue", LIST);
    let (exit, out) = on_a_terminal(&format!("compile {list}"));
    assert_eq!(exit, 2);
    assert!(
        out.starts_with("lbp16 compile: the output is bytes, not text: give -o FILE, or -o - "),
        "{out}"
    );
    let (exit, out) = on_a_terminal(&format!("compile {list} -o -"));
    assert!(exit == 0 && out.starts_with("LB"), "{out}");
    // Text is.
    let (exit, out) = on_a_terminal(&format!("dis {list}"));
    assert_eq!((exit, &out[..]), (0, "read registers 0x0004\r\n"));
}
