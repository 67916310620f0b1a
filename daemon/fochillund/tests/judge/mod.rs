//! The second implementation of the rules, by which some histories are played.
use serde::Deserialize;
use serde_json::value::RawValue;
use std::path::{Path, PathBuf};
use std::process::{Command, Stdio};

/// A history, and the founding of a group of one that has its vocabulary.
pub struct History {
    pub founding: String,
    pub records: Vec<String>,
}

#[derive(Deserialize)]
struct Told {
    answer: Option<Box<RawValue>>,
}

#[derive(Deserialize)]
struct Record<'t> {
    #[serde(borrow)]
    command: &'t RawValue,
    #[serde(borrow)]
    answer: &'t RawValue,
}

fn record_of(text: &str) -> Record<'_> {
    serde_json::from_str(text).expect("a record")
}

/// Builds the program, where it is not built. Gives its path.
fn program() -> PathBuf {
    let folder = Path::new(env!("CARGO_MANIFEST_DIR")).join("../../bench/reference");
    let mut cargo = Command::new(std::env::var_os("CARGO").unwrap_or("cargo".into()));
    cargo.args([
        "build",
        "--quiet",
        "--release",
        "--offline",
        "-j1",
        "--manifest-path",
    ]);
    cargo
        .arg(folder.join("Cargo.toml"))
        .arg("--target-dir")
        .arg(folder.join("target"));
    assert!(cargo.status().expect("cargo").success());
    folder.join("target/release/reference")
}

/// How many commands one message has at most.
const BATCH: usize = 64;

/// The lines that have one member take and deliver each command. It takes them by batches: a member sends so many messages and no more.
fn lines_of(history: &History) -> String {
    let (mut lines, mut serial) = (String::new(), 0);
    for some in history.records.chunks(BATCH) {
        let commands = some.iter().map(|text| record_of(text).command.get());
        let commands = commands.collect::<Vec<_>>().join(",");
        lines += &format!("{{\"do\":\"batch\",\"at\":1,\"caller\":0,\"serial\":{serial},\"commands\":[{commands}]}}\n");
        lines += &"{\"do\":\"deliver\",\"at\":1}\n".repeat(some.len());
        serial += some.len();
    }
    lines
}

/// Each history has the answers that the program gives.
pub fn check(histories: &[History]) {
    let program = program();
    let folder = tempfile::tempdir().expect("a folder");
    let (founding, schedule) = (folder.path().join("founding"), folder.path().join("lines"));
    for history in histories {
        std::fs::write(&founding, &history.founding).expect("it is written");
        std::fs::write(&schedule, lines_of(history)).expect("it is written");
        let mut play = Command::new(&program);
        play.arg("play")
            .arg(&founding)
            .arg(&schedule)
            .stderr(Stdio::inherit());
        let told = play.output().expect("it is run");
        assert!(told.status.success());
        let told = String::from_utf8(told.stdout).expect("text");
        let answers: Vec<String> = told.lines().filter_map(answer_of).collect();
        let records = history.records.iter();
        let own: Vec<&str> = records.map(|it| record_of(it).answer.get()).collect();
        assert_eq!(own, answers);
    }
}

/// What a line is answered, where it has delivered something.
fn answer_of(line: &str) -> Option<String> {
    let told: Told = serde_json::from_str(line).expect("a line of answer");
    told.answer.map(|answer| answer.get().to_owned())
}
