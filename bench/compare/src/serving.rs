//! Client lines, made from schedules: one client asks, and waits for each answer, so what is answered is determined.

use crate::case::{Case, Played, lines_of};
use crate::rows::REFUSALS;
use crate::text::{number_after, objects_after, text_between};
use std::collections::BTreeMap;

/// A founding's clock above this is near the end: which member meets it first is not determined.
const LAST_START: u64 = 1 << 52;

/// What an answer is, and why a command was not taken.
const ANSWERS: [&str; 6] = ["Done", "Granted", "Refused", "names", "permissions", "count"];
/// The denial of a founding file of version 2, which the conversations reach too.
const DENIALS: [&str; 1] = ["Limited"];
const DESK_REFUSALS: [&str; 3] = ["UnknownMember", "ClockFull", "SentFull"];

/// The schedules that are played from standard input, as client lines: submits lose what is not a client's, a batch becomes a line for
/// each of its commands, other events go. A line that is no event stays as it is.
pub fn cases_of(cases: &[Case]) -> Vec<Case> {
    let played = cases.iter().filter(|case| case.words.first().is_some_and(|word| word == "play"));
    played
        .filter(|case| case.words.get(2).is_some_and(|word| word == "-") && is_determined(case))
        .map(client_case)
        .collect()
}

fn is_determined(case: &Case) -> bool {
    let Some(founding) = &case.founding else {
        return true;
    };
    let founding = String::from_utf8_lossy(founding);
    number_of(&founding, "members")
        .is_some_and(|members| members == 1 || number_of(&founding, "clock").is_none_or(|clock| clock < LAST_START))
}

/// The number of a key of a founding file that is written in the plain way.
fn number_of(founding: &str, key: &str) -> Option<u64> {
    let line = founding.lines().find_map(|line| line.strip_prefix(key)?.trim_start().strip_prefix('='))?;
    line.trim().parse().ok()
}

fn client_case(case: &Case) -> Case {
    let lines = case.lines();
    let text = lines.iter().flat_map(|line| client_lines(line)).flat_map(|line| [line, b"\n".to_vec()].concat());
    Case {
        words: vec!["serve".to_owned(), case.words[1].clone()],
        schedule: text.collect(),
        is_group: false,
        ..case.clone()
    }
}

/// None for an event that is none of a client's.
fn client_lines(line: &[u8]) -> Vec<Vec<u8>> {
    let Ok(text) = std::str::from_utf8(line) else {
        return vec![line.to_vec()];
    };
    if text.starts_with("{\"do\":\"receive\"") || text.starts_with("{\"do\":\"deliver\"") {
        return Vec::new();
    }
    if text.starts_with("{\"do\":\"batch\"")
        && let Some((_, at)) = number_after(line, "at")
        && let Some(commands) = objects_after(line, "commands")
    {
        let head = format!("{{\"at\":{at},\"command\":").into_bytes();
        return commands.into_iter().map(|command| [&head, command, b"}"].concat()).collect();
    }
    let client = text.strip_prefix("{\"do\":\"submit\",").and_then(|rest| {
        let caller = rest.find("\"caller\":")?;
        let command = rest.find("\"command\":")?;
        (caller < command).then(|| format!("{{{}{}", &rest[..caller], &rest[command..]))
    });
    vec![client.map_or_else(|| line.to_vec(), String::into_bytes)]
}

/// Counts what was answered.
#[derive(Default)]
pub struct Told {
    pub lines: u64,
    words: BTreeMap<String, u64>,
}

impl Told {
    pub fn count(&mut self, played: &Played) {
        for text in lines_of(&played.output) {
            self.lines += 1;
            let text = String::from_utf8_lossy(text);
            let refused = text_between(&text, "\"refused\":\"", "\"");
            let denied = text_between(&text, "\"denied\":\"", "\"");
            let answered = || text_between(text.strip_prefix("{\"answer\":")?, "\"", "\"");
            let word = refused.or(denied).or_else(answered).unwrap_or("(unread)");
            *self.words.entry(word.to_owned()).or_default() += 1;
        }
    }

    /// What can be answered and was not.
    pub fn missing(&self) -> Vec<&str> {
        let schedules_alone = ["Repeat", "Gap", "BadSerial", "BadBatch", "NotSent", "FromSelf", "UnknownWord"];
        let refusals = REFUSALS.iter().filter(|word| !schedules_alone.contains(word));
        let wanted = ANSWERS.iter().chain(&DENIALS).chain(&DESK_REFUSALS).chain(refusals);
        wanted.filter(|word| !self.words.contains_key(**word)).copied().collect()
    }

    pub fn print(&self) {
        let words: Vec<String> = self.words.iter().map(|(word, count)| format!("{word} {count}")).collect();
        println!("  {}", words.join(", "));
    }
}
