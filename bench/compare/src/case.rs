//! One run of a program: its words, its founding and its schedule.

use crate::text::contains;

/// Stands for the schedule's own path among the words.
pub const SCHEDULE_PATH: &str = "{}";

#[derive(Clone)]
pub struct Case {
    pub name: String,
    pub words: Vec<String>,
    /// The file that the words name as `founding_name()`.
    pub founding: Option<Vec<u8>>,
    /// What stands on standard input, and in the file at the schedule's path.
    pub schedule: Vec<u8>,
    /// Whether the laws of groups are checked on what is printed for it.
    pub is_group: bool,
}

impl Case {
    /// A schedule that is played from standard input on a founding, or on the sample.
    pub fn new(name: String, founding: Option<Vec<u8>>, schedule: Vec<u8>) -> Case {
        let founding_word = if founding.is_some() { file_name(&name) } else { "-".to_owned() };
        Case {
            words: vec!["play".to_owned(), founding_word, "-".to_owned()],
            name,
            founding,
            schedule,
            is_group: false,
        }
    }

    /// A schedule that is played on the founding of a group. A line of it that is taken as an event has each number once.
    pub fn of_group(name: String, founding: Vec<u8>, schedule: Vec<u8>) -> Case {
        Case { is_group: true, ..Case::new(name, Some(founding), schedule) }
    }

    pub fn founding_name(&self) -> String {
        file_name(&self.name)
    }

    /// The same case by another name.
    pub fn renamed(mut self, name: String) -> Case {
        let (old, new) = (self.founding_name(), file_name(&name));
        for word in self.words.iter_mut().filter(|word| **word == old) {
            word.clone_from(&new);
        }
        self.name = name;
        self
    }

    /// Whether its founding file is one of version 2 that says so in the plain way.
    pub fn is_version_2(&self) -> bool {
        self.founding_lines().any(|line| line == b"version = 2")
    }

    /// Whether its founding file, if it is taken, makes the hierarchy a limited one. Its first letter may be an escape.
    pub fn is_limited(&self) -> bool {
        self.founding_lines().any(|line| line.starts_with(b"hierarchy = ") && contains(line, b"imited"))
    }

    fn founding_lines(&self) -> impl Iterator<Item = &[u8]> {
        self.founding.as_deref().map(lines_of).unwrap_or_default().into_iter()
    }

    pub fn lines(&self) -> Vec<&[u8]> {
        lines_of(&self.schedule)
    }
}

fn file_name(name: &str) -> String {
    format!("{name}.toml")
}

/// Lines end at a line feed or at the end.
pub fn lines_of(text: &[u8]) -> Vec<&[u8]> {
    let mut lines: Vec<&[u8]> = text.split(|byte| *byte == b'\n').collect();
    if lines.last().is_some_and(|line| line.is_empty()) {
        lines.pop();
    }
    lines
}

/// How a run ended and what it wrote.
#[derive(Clone, PartialEq, Eq)]
pub struct Played {
    pub status: i32,
    pub output: Vec<u8>,
    /// What it wrote to standard error, but for a refused command line, whose text each program words for itself.
    pub errors: String,
}

impl Played {
    pub fn new(status: i32, output: Vec<u8>, errors: String) -> Played {
        let errors = if status == 2 { String::new() } else { errors };
        Played { status, output, errors }
    }
}
