//! Plays each golden of the repository and compares what is printed.
//!
//! In a golden a line `> TEXT` is an input line, a line `< TEXT` the output line that is wanted, and `(a x 65)` in either
//! stands for 65 letters a. A line `= TEXT` is one of the founding: without any it is the sample. A line `! WORD` says by which
//! word the founding is refused. Lines that begin with `#` and empty lines say why it is there.

mod playing;

use playing::{founding_file, printed};
use std::fs;
use std::path::{Path, PathBuf};
use std::process::Command;

fn goldens() -> Vec<PathBuf> {
    let folder = Path::new(env!("CARGO_MANIFEST_DIR")).join("../../crates/rbac_goldens/data");
    let entries = fs::read_dir(folder).expect("the goldens' folder");
    let paths = entries.map(|entry| entry.expect("an entry of the folder").path());
    paths.filter(|path| path.extension().is_some_and(|extension| extension == "golden")).collect()
}

/// Writes out each `(a x 65)`.
fn expanded(text: &str) -> String {
    let Some((before, rest)) = text.split_once('(') else {
        return text.to_owned();
    };
    let (inner, after) = rest.split_once(')').expect("a closing bracket");
    let (letter, count) = inner.split_once(" x ").expect("a letter and a count");
    let count: usize = count.parse().expect("a count");
    format!("{before}{}{}", letter.repeat(count), expanded(after))
}

fn lines_after(golden: &str, sign: &str) -> String {
    let texts = golden.lines().filter_map(|line| line.strip_prefix(sign));
    texts.map(|text| expanded(text) + "\n").collect()
}

/// The sample founding in version 2, with the hierarchy that version 1 has.
const SAMPLE_OF_VERSION_2: &str = r#"version = 2
hierarchy = "general"
members = 1
operations = ["approve", "pay", "read"]
objects = ["invoice", "ledger"]
permissions = [["approve", "invoice"], ["pay", "invoice"], ["read", "ledger"]]
"#;

/// What is said of a founding file that ends the program with status 1.
fn refused(founding: &str) -> String {
    let file = founding_file(founding);
    let words = ["play".as_ref(), file.as_os_str(), "-".as_ref()];
    let output = Command::new(env!("CARGO_BIN_EXE_reference")).args(words).output().expect("the program ends");
    assert_eq!((output.status.code(), output.stdout.len()), (Some(1), 0), "{founding}");
    String::from_utf8(output.stderr).expect("a text")
}

fn check(path: &Path, golden: &str, founding: &str) {
    let wanted = lines_after(golden, "< ");
    let got = printed("play", founding, "-", lines_after(golden, "> "));
    for (line, (got, wanted)) in got.lines().zip(wanted.lines()).enumerate() {
        assert_eq!(got, wanted, "{} line {}", path.display(), line + 1);
    }
    assert_eq!(got, wanted, "{}", path.display());
}

#[test]
fn each_golden_plays() {
    let paths = goldens();
    assert!(paths.len() >= 17, "only {} goldens", paths.len());
    for path in paths {
        let golden = fs::read_to_string(&path).expect("a golden");
        let (founding, refusal) = (lines_after(&golden, "= "), lines_after(&golden, "! "));
        if !refusal.is_empty() {
            assert_eq!(refused(&founding), format!("rbac_monitor: founding: {refusal}"), "{}", path.display());
            continue;
        }
        check(&path, &golden, &founding);
        if founding.is_empty() {
            check(&path, &golden, SAMPLE_OF_VERSION_2);
        }
    }
}
