//! The monitor, or the second program, built and run by `rt try` without a proof.
//!
//! `rt try --cases FOLDER` builds the program once and runs it for each file of the folder. It keeps no program, so all that
//! is played at once is one call. It prints, for each case,
//!
//! - on standard output, a line `== NAME` and what the program wrote there;
//! - on standard error, what the program wrote there, and a line `case=NAME run=ended status=0 ..`.

use super::Player;
use crate::case::{Case, Played};
use std::collections::HashMap;
use std::fs;
use std::path::PathBuf;
use std::process::{Command, Stdio};
use std::time::Duration;

pub struct Tried {
    /// The folder of the program's crate.
    pub crate_folder: PathBuf,
    /// A folder of its own, for the cases.
    pub room: PathBuf,
}

/// A program of `rt try` is checked as it runs, and the schedules at the limits take it longer than a minute.
const SECONDS: &str = "300";

impl Player for Tried {
    fn play(&self, cases: &[Case]) -> Result<Vec<Played>, String> {
        let mut command = self.prepared(cases).map_err(|error| format!("{}: {error}", self.room.display()))?;
        let ended = command.output().map_err(|error| format!("rt: {error}"))?;
        let outputs = outputs_of(&ended.stdout);
        let errors = String::from_utf8_lossy(&ended.stderr).into_owned();
        let ends = ends_of(&errors);
        let played = cases.iter().map(|case| {
            let (status, errors) = ends.get(case.name.as_str())?;
            Some(Played::new(*status, outputs.get(&case.name).cloned().unwrap_or_default(), errors.clone()))
        });
        let played: Option<Vec<Played>> = played.collect();
        played.ok_or_else(|| format!("rt try gave no answer for a case:\n{}", last_lines(&errors, 40)))
    }

    /// Each call builds the program anew, so there should be few.
    fn cases_at_once(&self) -> usize {
        1_000
    }

    fn shrink_effort(&self) -> (usize, Duration) {
        (48, Duration::from_secs(600))
    }
}

impl Tried {
    /// Lays out the cases, and gives the call that plays them.
    fn prepared(&self, cases: &[Case]) -> std::io::Result<Command> {
        let (folder, foundings) = (self.room.join("cases"), self.room.join("foundings"));
        for emptied in [&folder, &foundings] {
            let _ = fs::remove_dir_all(emptied);
            fs::create_dir_all(emptied)?;
        }
        let mut command = Command::new("rt");
        command.args(["try", "--seconds", SECONDS]).current_dir(&self.crate_folder);
        command.stdin(Stdio::null());
        for case in cases {
            fs::write(folder.join(&case.name), &case.schedule)?;
            if !case.words.is_empty() {
                fs::write(folder.join(format!("{}.args", case.name)), case.words.join("\n") + "\n")?;
            }
            if let Some(bytes) = &case.founding {
                let path = foundings.join(case.founding_name());
                fs::write(&path, bytes)?;
                command.arg("--data").arg(format!("{}={}", case.founding_name(), path.display()));
            }
        }
        command.arg("--cases").arg(&folder);
        Ok(command)
    }
}

/// What stands under each `== NAME`. No line of an output begins like that.
fn outputs_of(text: &[u8]) -> HashMap<String, Vec<u8>> {
    let mut outputs: HashMap<String, Vec<u8>> = HashMap::new();
    let mut current = None;
    for line in text.split_inclusive(|byte| *byte == b'\n') {
        if let Some(name) = line.strip_prefix(b"== ") {
            let name = String::from_utf8_lossy(name).trim_end().to_owned();
            outputs.insert(name.clone(), Vec::new());
            current = Some(name);
        } else if let Some(output) = current.as_ref().and_then(|name| outputs.get_mut(name)) {
            output.extend_from_slice(line);
        }
    }
    outputs
}

/// The status of each case that ended, and what stands before its line.
fn ends_of(text: &str) -> HashMap<&str, (i32, String)> {
    let mut ends = HashMap::new();
    let mut before = String::new();
    for line in text.split_inclusive('\n') {
        let Some(rest) = line.strip_prefix("case=") else {
            before.push_str(line);
            continue;
        };
        let mut words = rest.split_whitespace();
        let name = words.next().unwrap_or_default();
        let status = words.find_map(|word| word.strip_prefix("status=")).and_then(|status| status.parse().ok());
        if let (true, Some(status)) = (rest.contains(" run=ended "), status) {
            ends.insert(name, (status, std::mem::take(&mut before)));
        } else {
            before.clear();
        }
    }
    ends
}

fn last_lines(text: &str, count: usize) -> String {
    let lines: Vec<&str> = text.lines().collect();
    lines[lines.len().saturating_sub(count)..].join("\n")
}

#[cfg(test)]
mod tests {
    use super::*;

    #[test]
    fn outputs_stand_under_their_names() {
        let outputs = outputs_of(b"== a\n{\"line\":1}\n{\"line\":2}\n== b\n== c\nx");
        assert_eq!(outputs["a"], b"{\"line\":1}\n{\"line\":2}\n");
        assert_eq!(outputs["b"], b"");
        assert_eq!(outputs["c"], b"x");
    }

    #[test]
    fn ends_follow_what_was_written() {
        let text = "case=a run=ended status=0 runners=1\nrbac_monitor: file: x\ncase=b run=ended status=1 runners=1\ncase=c run=no-answer\ncases=3";
        let ends = ends_of(text);
        assert_eq!(ends["a"], (0, String::new()));
        assert_eq!(ends["b"], (1, "rbac_monitor: file: x\n".to_owned()));
        assert!(!ends.contains_key("c"));
    }
}
