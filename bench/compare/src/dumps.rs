//! Dumps: client lines that make a policy again, as the monitor tells them.
//!
//! A case is client lines that make a policy, the mark, and client lines that are asked then. They are played in two ways: the first
//! lines as they are, and in their place what the monitor tells of their policy, of a group that was just founded.

use crate::case::{Case, Played, lines_of};
use crate::coverage::command_of;
use crate::players::Player;
use crate::rows::DUMPED;
use crate::text::contains;
use std::cell::RefCell;
use std::collections::BTreeMap;
use std::time::Duration;

/// The line at which the policy is told.
pub const MARK: &[u8] = b"(here the policy is told)";

/// The lines up to the mark, and those behind it. Without a mark the policy is told at the end.
pub fn parts_of(case: &Case) -> (Vec<&[u8]>, Vec<&[u8]>) {
    let lines = case.lines();
    let place = lines.iter().position(|line| *line == MARK).unwrap_or(lines.len());
    (lines[..place].to_vec(), lines.get(place + 1..).unwrap_or_default().to_vec())
}

pub fn with_lines(case: &Case, lines: &[&[u8]]) -> Case {
    Case { schedule: lines.iter().flat_map(|line| [line, &b"\n"[..]].concat()).collect(), ..case.clone() }
}

/// The case with what stands behind the mark alone.
pub fn behind_the_mark(case: &Case) -> Case {
    with_lines(case, &parts_of(case).1)
}

/// The client lines of a case as the monitor is asked for their dump.
fn dumping(case: &Case, lines: &[&[u8]]) -> Case {
    let words = ["dump", "--serve", "--lenient", &case.words[1], "-"].map(str::to_owned);
    Case { words: words.to_vec(), ..with_lines(case, lines) }
}

/// The lines as they are. What it prints are the answers behind the mark, without their numbers, and as errors the lines that were
/// refused before it.
pub struct Direct<'a> {
    pub reference: &'a dyn Player,
}

impl Player for Direct<'_> {
    fn play(&self, cases: &[Case]) -> Result<Vec<Played>, String> {
        let whole =
            cases.iter().map(|case| with_lines(case, &(|(made, asked)| [made, asked].concat())(parts_of(case))));
        let played = self.reference.play(&whole.collect::<Vec<_>>())?;
        Ok(cases.iter().zip(&played).map(|(case, played)| told_directly(parts_of(case).0.len(), played)).collect())
    }

    fn cases_at_once(&self) -> usize {
        self.reference.cases_at_once()
    }

    fn shrink_effort(&self) -> (usize, Duration) {
        self.reference.shrink_effort()
    }
}

fn told_directly(made: usize, played: &Played) -> Played {
    let lines = lines_of(&played.output);
    let refused = lines.iter().take(made).filter(|line| contains(line, b"\"refused\":"));
    let refused: String = refused.map(|line| String::from_utf8_lossy(line) + "\n").collect();
    Played::new(played.status, unnumbered(lines.get(made..).unwrap_or_default()), format!("{}{refused}", played.errors))
}

/// The answers without the numbers of their lines.
fn unnumbered(answers: &[&[u8]]) -> Vec<u8> {
    let without = |answer: &&[u8]| {
        let text = String::from_utf8_lossy(answer).into_owned();
        let Some((before, behind)) = text.rsplit_once("\"line\":") else {
            return text + "\n";
        };
        let behind = behind.trim_start_matches(|letter: char| letter.is_ascii_digit());
        // A refusal has its number first, an answer last.
        let (before, behind) = match behind.strip_prefix(',') {
            Some(behind) => (before, behind),
            None => (before.strip_suffix(',').unwrap_or(before), behind),
        };
        format!("{before}{behind}\n")
    };
    answers.iter().map(without).collect::<String>().into_bytes()
}

/// What the monitor tells of the policy in the place of the lines before the mark. What it prints are the answers of the
/// monitor behind the mark, and then what is wrong besides.
pub struct Again<'a> {
    asked: &'a dyn Player,
    reference: &'a dyn Player,
    program: &'a dyn Player,
    pub counted: RefCell<Counted>,
}

/// What stood in dumps.
#[derive(Default)]
pub struct Counted {
    pub dumps: u64,
    pub lines: u64,
    pub commands: BTreeMap<String, u64>,
}

impl Player for Again<'_> {
    fn play(&self, cases: &[Case]) -> Result<Vec<Played>, String> {
        let dumps = self.dumps_of(cases)?;
        let lines: Vec<Vec<&[u8]>> = dumps.iter().map(|dump| lines_of(&dump.output)).collect();
        let of_dumps: Vec<Case> = cases.iter().zip(&lines).map(|(case, lines)| dumping(case, lines)).collect();
        let again =
            cases.iter().zip(&lines).map(|(case, lines)| with_lines(case, &[&lines[..], &parts_of(case).1].concat()));
        let again: Vec<Case> = again.collect();
        let (twice, wanted, got) =
            (self.asked.play(&of_dumps)?, self.reference.play(&again)?, self.program.play(&again)?);
        for (case, lines) in cases.iter().zip(&lines) {
            self.counted.borrow_mut().count(case, lines);
        }
        let places = 0..cases.len();
        Ok(places.map(|place| told_again(&dumps[place], &twice[place], &wanted[place], &got[place])).collect())
    }

    fn cases_at_once(&self) -> usize {
        self.asked.cases_at_once().max(self.program.cases_at_once())
    }

    fn shrink_effort(&self) -> (usize, Duration) {
        let efforts = [self.asked.shrink_effort(), self.program.shrink_effort()];
        efforts.into_iter().max().unwrap_or_default()
    }
}

impl<'a> Again<'a> {
    pub fn new(asked: &'a dyn Player, reference: &'a dyn Player, program: &'a dyn Player) -> Again<'a> {
        Again { asked, reference, program, counted: RefCell::default() }
    }

    /// What the monitor tells of the lines before the mark.
    fn dumps_of(&self, cases: &[Case]) -> Result<Vec<Played>, String> {
        self.asked.play(&cases.iter().map(|case| dumping(case, &parts_of(case).0)).collect::<Vec<_>>())
    }
}

impl Counted {
    pub fn missing(&self) -> Vec<String> {
        DUMPED
            .iter()
            .filter(|name| !self.commands.contains_key(**name))
            .map(|name| format!("{name} in a dump"))
            .collect()
    }

    pub fn text(&self) -> String {
        let words: Vec<String> = self.commands.iter().map(|(name, count)| format!("{name} {count}")).collect();
        words.join(", ")
    }

    fn count(&mut self, case: &Case, lines: &[&[u8]]) {
        self.dumps += 1;
        self.lines += lines.len() as u64;
        let is_limited = case.is_limited();
        for line in lines {
            *self.commands.entry(command_of(line, is_limited)).or_default() += 1;
        }
    }
}

fn told_again(dump: &Played, twice: &Played, wanted: &Played, got: &Played) -> Played {
    let lines = lines_of(&dump.output);
    let behind = |played: &Played| unnumbered(lines_of(&played.output).get(lines.len()..).unwrap_or_default());
    let mut output = behind(got);
    if behind(wanted) != output {
        output.extend(b"the reference answers otherwise behind the dump\n");
    }
    if twice.output != dump.output {
        output.extend(b"the dump of the dump is another one\n");
    }
    for (name, played) in [("reference", wanted), ("monitor", got)] {
        let answers = lines_of(&played.output);
        let denied =
            lines.iter().enumerate().find(|(place, _)| !answers.get(*place).is_some_and(|answer| is_done(answer)));
        if let Some((place, line)) = denied {
            let answer = answers.get(place).map_or("nothing".into(), |answer| String::from_utf8_lossy(answer));
            let line = String::from_utf8_lossy(line);
            output.extend(format!("the dump has {line}, to which the {name} answers {answer}\n").into_bytes());
        }
    }
    let all = [dump, twice, wanted, got];
    let status = all.iter().map(|played| played.status).find(|status| *status != 0).unwrap_or(0);
    Played { status, output, errors: all.map(|played| played.errors.as_str()).concat() }
}

fn is_done(answer: &[u8]) -> bool {
    answer.starts_with(b"{\"answer\":\"Done\",")
}

#[cfg(test)]
mod tests {
    use super::*;

    #[test]
    fn answers_without_their_numbers() {
        let answers: [&[u8]; 3] = [
            br#"{"answer":"Done","line":17}"#,
            br#"{"line":18,"refused":"NotJson"}"#,
            br#"{"answer":{"names":["line"]},"line":9}"#,
        ];
        let wanted = "{\"answer\":\"Done\"}\n{\"refused\":\"NotJson\"}\n{\"answer\":{\"names\":[\"line\"]}}\n";
        assert_eq!(String::from_utf8_lossy(&unnumbered(&answers)), wanted);
    }

    #[test]
    fn lines_before_and_behind_the_mark() {
        let schedule = [&b"a\nb\n"[..], MARK, b"\nc\n"].concat();
        let case = Case::new("x".to_owned(), None, schedule);
        assert_eq!(parts_of(&case), (vec![&b"a"[..], b"b"], vec![&b"c"[..]]));
        assert_eq!(behind_the_mark(&case).schedule, b"c\n");
    }
}
