//! The words `group` and `ask`.
use fochillund::ask::Members;
use nix::sys::signal::{kill, Signal};
use nix::unistd::Pid;
use std::io::{BufRead, BufReader, Lines};
use std::path::{Path, PathBuf};
use std::process::{Child, ChildStdout, Command, Stdio};
use std::time::Duration;

fn example(name: &str) -> PathBuf {
    Path::new(env!("CARGO_MANIFEST_DIR"))
        .join("../../examples")
        .join(name)
}

/// A group that `fochillund group` runs, and what it prints.
struct Running {
    process: Child,
    told: Lines<BufReader<ChildStdout>>,
}

impl Running {
    fn of(folder: &Path, more: &[&str]) -> Running {
        let mut command = Command::new(env!("CARGO_BIN_EXE_fochillund"));
        command
            .arg("group")
            .arg(example("hospital.toml"))
            .args(more);
        command.arg("--folder").arg(folder).stdout(Stdio::piped());
        let mut process = command.spawn().unwrap();
        let told = BufReader::new(process.stdout.take().unwrap()).lines();
        Running { process, told }
    }

    /// The next line that has this text.
    fn line_with(&mut self, text: &str) -> String {
        let mut lines = self.told.by_ref().map(Result::unwrap);
        lines.find(|line| line.contains(text)).unwrap()
    }
}

impl Drop for Running {
    fn drop(&mut self) {
        kill(Pid::from_raw(self.process.id() as i32), Signal::SIGTERM).unwrap();
        self.process.wait().unwrap();
    }
}

/// What `fochillund ask` prints for the lines of a file.
fn asked(folder: &Path, lines: &Path) -> (String, Option<i32>) {
    let mut command = Command::new(env!("CARGO_BIN_EXE_fochillund"));
    command.arg("ask").arg(folder);
    let told = command
        .stdin(std::fs::File::open(lines).unwrap())
        .output()
        .unwrap();
    (String::from_utf8(told.stdout).unwrap(), told.status.code())
}

/// What `fochillund dump` prints.
fn dumped(folder: &Path) -> (String, Option<i32>) {
    let mut command = Command::new(env!("CARGO_BIN_EXE_fochillund"));
    let told = command.arg("dump").arg(folder).output().unwrap();
    (String::from_utf8(told.stdout).unwrap(), told.status.code())
}

/// The process that a line tells.
fn process_of(line: &str) -> Pid {
    let (_, rest) = line.split_once("(process ").unwrap();
    Pid::from_raw(rest.split(',').next().unwrap().parse().unwrap())
}

#[test]
fn a_group_answers_as_serve_does_and_goes_on_behind_a_kill() {
    let room = tempfile::tempdir().unwrap();
    let folder = room.path().join("group");
    let mut group = Running::of(&folder, &[]);
    let up: Vec<String> = (0..3).map(|_| group.line_with(" is up: ")).collect();
    let told = std::fs::read_to_string(example("hospital.told.jsonl")).unwrap();
    assert_eq!(asked(&folder, &example("hospital.jsonl")), (told, Some(0)));
    let second = up.iter().find(|line| line.starts_with("n2 ")).unwrap();
    kill(process_of(second), Signal::SIGKILL).unwrap();
    assert!(group
        .line_with("killed")
        .starts_with("n2 was killed by signal 9"));
    let more = room.path().join("more");
    let line = r#"{"at":2,"command":{"name":"AddUser","user":"mara"}}"#;
    std::fs::write(&more, line).unwrap();
    let told = r#"{"answer":{"denied":"UserExists","number":1},"line":1}"#.to_owned() + "\n";
    assert_eq!(asked(&folder, &more), (told, Some(0)));
    assert!(group.line_with(" is up: ").contains(" cells, "));
}

#[test]
fn the_members_end_with_what_has_started_them() {
    let room = tempfile::tempdir().unwrap();
    let mut group = Running::of(&room.path().join("group"), &["--members", "2"]);
    let up: Vec<Pid> = (0..2)
        .map(|_| process_of(&group.line_with(" is up: ")))
        .collect();
    kill(Pid::from_raw(group.process.id() as i32), Signal::SIGKILL).unwrap();
    for process in up {
        while kill(process, None).is_ok() {
            std::thread::sleep(std::time::Duration::from_millis(10));
        }
    }
}

#[test]
fn a_policy_is_dumped_and_makes_another_group() {
    let room = tempfile::tempdir().unwrap();
    let dump = example("hospital.dump.jsonl");
    let wanted = (std::fs::read_to_string(&dump).unwrap(), Some(0));
    for (name, lines) in [("first", example("hospital.jsonl")), ("second", dump)] {
        let folder = room.path().join(name);
        let mut group = Running::of(&folder, &[]);
        (0..3).for_each(|_| drop(group.line_with(" is up: ")));
        let (told, _) = asked(&folder, &lines);
        let answered = told.lines().count();
        assert_eq!(
            answered,
            std::fs::read_to_string(lines).unwrap().lines().count()
        );
        // Members that nobody asked may be behind the first.
        assert_eq!(dumped(&folder), wanted, "{name}");
    }
    assert_eq!(dumped(room.path()), (String::new(), Some(1)));
}

#[tokio::test]
async fn a_policy_of_many_lines_takes_few_messages() {
    let room = tempfile::tempdir().unwrap();
    let folder = room.path().join("group");
    let mut group = Running::of(&folder, &["--members", "1"]);
    group.line_with(" is up: ");
    let users = (0..500).map(|user| user.to_string() + if user == 250 { " " } else { "" });
    let line =
        |user| format!("{{\"at\":1,\"command\":{{\"name\":\"AddUser\",\"user\":\"{user}\"}}}}\n");
    let lines = room.path().join("lines");
    std::fs::write(&lines, users.map(line).collect::<String>()).unwrap();
    let (told, status) = asked(&folder, &lines);
    let wanted = |line: usize| match line {
        251 => r#"{"line":251,"refused":"BadName"}"#.to_owned(),
        line => format!(r#"{{"answer":"Done","line":{line}}}"#),
    };
    let wanted: Vec<String> = (1..=500).map(wanted).collect();
    assert_eq!(told.lines().collect::<Vec<_>>(), wanted);
    assert_eq!(status, Some(0));
    let state = Members::of(&folder, Duration::ZERO).state(1).await.unwrap();
    assert!(state.taken[0] < 100, "{} messages", state.taken[0]);
}

#[test]
fn what_is_no_line_is_told_and_the_rest_is_asked() {
    let room = tempfile::tempdir().unwrap();
    let folder = room.path().join("group");
    let mut group = Running::of(&folder, &["--members", "1"]);
    group.line_with(" is up: ");
    let lines = room.path().join("lines");
    let text = "{}\n{\"at\":1,\"command\":{\"name\":\"AddUser\"}}\n{\"at\":1,\"command\":{\"name\":\"AddUser\",\"user\":\"ann\"}}\n";
    std::fs::write(&lines, text).unwrap();
    let (told, status) = asked(&folder, &lines);
    let told: Vec<&str> = told.lines().collect();
    let wanted = [
        r#"{"line":1,"refused":"BadLine"}"#,
        r#"{"line":2,"refused":"MissingField"}"#,
        r#"{"answer":"Done","line":3}"#,
    ];
    assert_eq!((&told[..], status), (&wanted[..], Some(0)));
}
