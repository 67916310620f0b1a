//! Gives lines to the program.

use std::io::Write;
use std::path::PathBuf;
use std::process::{Command, Stdio};
use std::sync::atomic::{AtomicU32, Ordering};

/// What is printed for lines by the words `WORD FOUNDING LAST`, as `play FOUNDING -`. A founding without a text is the sample founding.
pub fn printed(word: &str, founding: &str, last: &str, input: String) -> String {
    let file = (!founding.is_empty()).then(|| founding_file(founding));
    let path = file.as_ref().map_or("-", |file| file.to_str().expect("a path that is a text"));
    let mut process = Command::new(env!("CARGO_BIN_EXE_reference"))
        .args([word, path, last])
        .stdin(Stdio::piped())
        .stdout(Stdio::piped())
        .spawn()
        .expect("the program starts");
    let mut writer = process.stdin.take().expect("a piped input");
    let writing = std::thread::spawn(move || writer.write_all(input.as_bytes()));
    let output = process.wait_with_output().expect("the program ends");
    writing.join().expect("the writer ends").expect("the input is taken");
    assert!(output.status.success());
    String::from_utf8(output.stdout).expect("a text")
}

/// A file of its own for each founding, since tests run at once.
pub fn founding_file(text: &str) -> PathBuf {
    static FILES: AtomicU32 = AtomicU32::new(0);
    let number = FILES.fetch_add(1, Ordering::Relaxed);
    let name = format!("{}-{number}.toml", env!("CARGO_CRATE_NAME"));
    let path = PathBuf::from(env!("CARGO_TARGET_TMPDIR")).join(name);
    std::fs::write(&path, text).expect("the file is written");
    path
}
