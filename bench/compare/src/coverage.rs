//! Counts what occurred: answers of each command, refusals, ends of runs, and kinds of events of groups.

use crate::case::{Case, Played, lines_of};
use crate::generate::{Choices, Members};
use crate::group_run::{self, GroupRun};
use crate::rows::{
    CALL_REFUSALS, ENDS, GROUP_OUTCOMES, Group, LIMITED_ROWS, OUTCOMES, REFUSALS, ROWS, Row, VERSION_2_ENDS, row_of,
};
use crate::text::{contains, count, objects_after, text_between};
use std::collections::{BTreeMap, HashMap};

#[derive(Default)]
pub struct Coverage {
    pub lines: u64,
    answers: BTreeMap<(String, String), u64>,
    others: BTreeMap<String, u64>,
    kinds: BTreeMap<&'static str, u64>,
    /// Which laws of the order are broken, and where.
    pub broken_laws: Vec<String>,
}

/// Commands of lines that are written in another way than compactly are not read here.
const UNREAD: &str = "(varied lines)";

impl Coverage {
    pub fn count(&mut self, case: &Case, played: &Played) {
        let end = end_of(played);
        if case.is_version_2() {
            self.count_other(format!("version 2, {end}"));
        }
        self.count_other(end);
        let is_limited = case.is_limited();
        // The command of each stamp.
        let mut submitted: HashMap<String, String> = HashMap::new();
        for (line, text) in case.lines().iter().zip(lines_of(&played.output)) {
            self.lines += 1;
            let text = String::from_utf8_lossy(text);
            if text.contains("\"refused\":\"") {
                self.count_other(text_between(&text, "\"refused\":\"", "\"").unwrap_or_default().to_owned());
            } else if text.starts_with("{\"answer\":null") {
                self.count_other("delivered nothing".to_owned());
            } else if let Some(answer) = text.strip_prefix("{\"answer\":") {
                self.count_other("delivered".to_owned());
                let command = submitted.get(stamp_of(&text)).cloned().unwrap_or_else(|| UNREAD.to_owned());
                *self.answers.entry((command, word_of(answer).to_owned())).or_default() += 1;
            } else if let Some(stamp) = text.strip_prefix("{\"acknowledged\":") {
                let word = if stamp.starts_with("null") { "read" } else { "acknowledged" };
                self.count_other(word.to_owned());
            } else {
                self.count_other("submitted".to_owned());
                let stamp = stamp_of(&text);
                let commands = commands_of(line, is_limited);
                submitted
                    .extend(commands.into_iter().enumerate().map(|(place, name)| (with_place(stamp, place), name)));
            }
        }
        if case.is_group {
            self.count_group(case, played);
        }
    }

    /// The same of the commands of a client, each of which is answered by the line in its place.
    pub fn count_told(&mut self, case: &Case, played: &Played) {
        let end = end_of(played);
        if case.is_version_2() {
            self.count_other(format!("version 2, {end}"));
        }
        self.count_other(end);
        let is_limited = case.is_limited();
        for (line, text) in case.lines().iter().zip(lines_of(&played.output)) {
            self.lines += 1;
            let text = String::from_utf8_lossy(text);
            match text.strip_prefix("{\"answer\":") {
                Some(answer) => {
                    let told = (command_of(line, is_limited), word_of(answer).to_owned());
                    *self.answers.entry(told).or_default() += 1;
                }
                None => self.count_other(text_between(&text, "\"refused\":\"", "\"").unwrap_or_default().to_owned()),
            }
        }
    }

    /// What can be told of commands and of foundings and was not.
    pub fn missing_of_calls(&self, choices: &Choices) -> Vec<String> {
        let mut missing = self.missing_answers(choices);
        let foundings =
            ENDS.iter().chain(&VERSION_2_ENDS).filter(|end| !end.contains(" file") && !end.contains(" run"));
        let others = CALL_REFUSALS.iter().chain(foundings.filter(|end| !end.ends_with("status 2")));
        missing.extend(others.filter(|word| !self.others.contains_key(**word)).map(|word| word.to_string()));
        missing
    }

    /// The answers but for denials that a review or a check can get and did not.
    pub fn missing_of_questions(&self) -> Vec<String> {
        let questions = ROWS.iter().filter(|row| row.is_question());
        let answers = questions.flat_map(|row| row.answers.iter().map(|answer| (row.name, *answer)));
        let absent = answers.filter(|(name, answer)| !answer.starts_with("No") && self.answers_of(name, answer) == 0);
        absent.map(|(name, answer)| format!("{name} {answer}")).collect()
    }

    /// How many commands of such rows were answered.
    pub fn answered(&self, is_meant: impl Fn(&Row) -> bool) -> u64 {
        let meant = self.answers.iter().filter(|((name, _), _)| row_of(name).is_some_and(&is_meant));
        meant.map(|(_, count)| count).sum()
    }

    fn count_group(&mut self, case: &Case, played: &Played) {
        match GroupRun::read(case, played) {
            Err(law) => self.broken_laws.push(law),
            Ok(run) => run.kinds.into_iter().for_each(|kind| *self.kinds.entry(kind).or_default() += 1),
        }
    }

    fn count_other(&mut self, word: String) {
        *self.others.entry(word).or_default() += 1;
    }

    fn answers_of(&self, command: &str, answer: &str) -> u64 {
        self.answers.get(&(command.to_owned(), answer.to_owned())).copied().unwrap_or(0)
    }

    /// What can occur and did not.
    pub fn missing(&self, choices: &Choices) -> Vec<String> {
        let mut missing = self.missing_of_groups();
        if choices.members == Members::OneAndGroups {
            missing.extend(self.missing_of_one(choices));
        }
        missing
    }

    /// What can occur at one member and did not.
    pub fn missing_of_one(&self, choices: &Choices) -> Vec<String> {
        let mut missing = self.missing_answers(choices);
        let others = OUTCOMES.iter().chain(&REFUSALS).chain(&ENDS).chain(&VERSION_2_ENDS);
        missing.extend(others.filter(|word| !self.others.contains_key(**word)).map(|word| word.to_string()));
        missing
    }

    /// The kinds of events of groups that did not occur.
    pub fn missing_of_groups(&self) -> Vec<String> {
        let absent = group_run::KINDS.iter().filter(|kind| !self.kinds.contains_key(**kind));
        absent.map(|kind| kind.to_string()).collect()
    }

    /// The answers of commands that can occur and did not.
    fn missing_answers(&self, choices: &Choices) -> Vec<String> {
        let rows = choices.rows().into_iter().chain(&LIMITED_ROWS);
        let answers = rows.flat_map(|row| row.answers.iter().map(|answer| (row.name, *answer)));
        let absent = answers.filter(|(command, answer)| self.answers_of(command, answer) == 0);
        absent.map(|(command, answer)| format!("{command} {answer}")).collect()
    }

    /// Answers that no row has: either program or this tool is wrong.
    pub fn unknown(&self) -> Vec<String> {
        let is_known = |command: &str, answer: &str| {
            row_of(command).map_or(command == UNREAD, |row| row.answers.contains(&answer))
        };
        let answers = self.answers.keys().filter(|(command, answer)| !is_known(command, answer));
        let known = OUTCOMES.iter().chain(&GROUP_OUTCOMES).chain(&REFUSALS).chain(&ENDS).chain(&VERSION_2_ENDS);
        let others = self.others.keys().filter(|word| !known.clone().any(|known| known == word));
        answers.map(|(command, answer)| format!("{command} {answer}")).chain(others.cloned()).collect()
    }

    pub fn print(&self) {
        let mut commands: Vec<&String> = self.answers.keys().map(|(command, _)| command).collect();
        commands.dedup();
        for command in commands {
            let counted = self.answers.iter().filter(|((other, _), _)| other == command);
            let words: Vec<String> = counted.map(|((_, answer), count)| format!("{answer} {count}")).collect();
            println!("  {command}: {}", words.join(", "));
        }
        let words: Vec<String> = self.others.iter().map(|(word, count)| format!("{word} {count}")).collect();
        println!("  lines and runs: {}", words.join(", "));
        let words: Vec<String> = self.kinds.iter().map(|(kind, count)| format!("{kind} {count}")).collect();
        if !words.is_empty() {
            println!("  in groups: {}", words.join(", "));
        }
    }
}

fn stamp_of(text: &str) -> &str {
    text_between(text, "\"stamp\":", "}").unwrap_or_default()
}

/// The word of an answer: its text, its denial, or the kind of its list.
fn word_of(answer: &str) -> &str {
    let kinds = [
        ("{\"names\":[]", "no names"),
        ("{\"names\":", "names"),
        ("{\"permissions\":[]", "no permissions"),
        ("{\"permissions\":", "permissions"),
        ("{\"count\":", "count"),
    ];
    let kind = kinds.into_iter().find(|(start, _)| answer.starts_with(start)).map(|(_, word)| word);
    kind.or_else(|| text_between(answer, "{\"denied\":\"", "\""))
        .or_else(|| text_between(answer, "\"", "\""))
        .unwrap_or("?")
}

/// The stamp of the command at this place of a message with this stamp.
fn with_place(stamp: &str, place: usize) -> String {
    if place == 0 { stamp.to_owned() } else { format!("{},{place}]", stamp.trim_end_matches(']')) }
}

/// The names of a line's commands, or none where it is not sure which ones they are.
fn commands_of(line: &[u8], is_limited: bool) -> Vec<String> {
    match objects_after(line, "commands") {
        Some(_) if count(line, b"\"commands\"") > 1 || contains(line, b"\\") => Vec::new(),
        Some(commands) => commands.iter().map(|command| command_of(command, is_limited)).collect(),
        None => vec![command_of(line, is_limited)],
    }
}

/// The name of a command. Those of the hierarchy are counted by themselves where it is limited.
pub fn command_of(line: &[u8], is_limited: bool) -> String {
    let line = String::from_utf8_lossy(line);
    let name = text_between(&line, "\"name\":\"", "\"").unwrap_or_default();
    // Where the key stands twice, or with escapes, another one may be meant.
    let is_sure = line.matches("\"name\"").count() == 1 && !line.contains('\\');
    match row_of(name).filter(|_| is_sure) {
        Some(row) if is_limited && row.group == Group::Hierarchy => format!("{name}, limited"),
        Some(_) => name.to_owned(),
        None => UNREAD.to_owned(),
    }
}

/// The status, and of a message its words but for the path of a file.
fn end_of(played: &Played) -> String {
    let message = played.errors.trim_end().strip_prefix("rbac_monitor: ").unwrap_or_default();
    let words = if message.starts_with("file: ") { "file" } else { message };
    format!("status {} {words}", played.status).trim_end().to_owned()
}

#[cfg(test)]
mod tests {
    use super::*;
    use crate::generate::Extent;

    #[test]
    fn what_occurred_is_not_missing() {
        let schedule = b"{\"command\":{\"name\":\"AddUser\"}}\n{\"do\":\"deliver\"}\n{\"do\":\"deliver\"}\n{\n";
        let output = b"{\"line\":1,\"stamp\":[1,1]}
{\"answer\":{\"denied\":\"UserExists\",\"number\":1},\"caller\":0,\"line\":2,\"serial\":0,\"stamp\":[1,1]}
{\"answer\":null,\"line\":3}
{\"line\":4,\"refused\":\"NotJson\"}
";
        let mut coverage = Coverage::default();
        let case = Case::new("a".to_owned(), None, schedule.to_vec());
        coverage.count(&case, &Played::new(0, output.to_vec(), String::new()));
        let choices =
            Choices { seed: 1, lines: 0, reviews: false, extent: Extent::Whole, members: Members::OneAndGroups };
        let (all, missing) = (Coverage::default().missing(&choices), coverage.missing(&choices));
        let occurred: Vec<&String> = all.iter().filter(|word| !missing.contains(word)).collect();
        assert_eq!(
            occurred,
            ["AddUser UserExists", "submitted", "delivered", "delivered nothing", "NotJson", "status 0"]
        );
        assert!(missing.contains(&"AddUser Done".to_owned()));
        assert!(coverage.unknown().is_empty());
    }

    #[test]
    fn an_answer_that_no_row_has_is_unknown() {
        let mut coverage = Coverage::default();
        let case = Case::new("a".to_owned(), None, b"{\"name\":\"AddUser\"}\n{}\n".to_vec());
        let output =
            b"{\"line\":1,\"stamp\":[1,1]}\n{\"answer\":\"Granted\",\"line\":2,\"stamp\":[1,1]}\n{\"refused\":\"Odd\"}\n";
        coverage.count(&case, &Played::new(1, output.to_vec(), "rbac_monitor: run: Odd\n".to_owned()));
        assert_eq!(coverage.unknown(), ["AddUser Granted", "status 1 run: Odd"]);
    }
}
