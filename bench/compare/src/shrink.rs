//! Makes a schedule with a difference short.

use crate::case::{Case, Played, lines_of};
use crate::players::Player;
use crate::text::{contains, count_of_commands, number_after};
use std::collections::HashMap;
use std::ops::Range;
use std::time::Instant;

pub struct Pair<'a> {
    pub reference: &'a dyn Player,
    pub program: &'a dyn Player,
}

impl Pair<'_> {
    pub fn play(&self, cases: &[Case]) -> Result<Vec<(Played, Played)>, String> {
        let wanted = self.reference.play(cases)?;
        let got = self.program.play(cases)?;
        Ok(wanted.into_iter().zip(got).collect())
    }
}

/// A line, and what it is the next one of where the reference takes it.
#[derive(Clone)]
struct Line {
    text: Vec<u8>,
    next_of: Option<Numbered>,
}

/// What is numbered.
#[derive(Clone, Copy, PartialEq, Eq, Hash)]
enum Numbered {
    SubmitsOf { at: u32, caller: u32 },
    Receipts { at: u32, from: u32 },
}

impl Numbered {
    /// The key of the number, and the first number.
    fn key(self) -> (&'static str, u32) {
        match self {
            Numbered::SubmitsOf { .. } => ("serial", 0),
            Numbered::Receipts { .. } => ("number", 1),
        }
    }
}

/// Cuts lines away while the difference stays.
pub fn shrink(pair: &Pair, case: Case) -> Result<Case, String> {
    let played = pair.play(std::slice::from_ref(&case))?;
    let Some((wanted, got)) = played.first().filter(|(wanted, got)| wanted != got) else {
        return Err(format!("{}: the difference did not come again", case.name));
    };
    let (at_once, time) = pair.program.shrink_effort();
    let mut shrinking =
        Shrinking { pair, lines: numbered_lines(&case, wanted), case, at_once, end: Instant::now() + time };
    let seen = lines_up_to_difference(wanted, got).min(shrinking.lines.len());
    let cut = shrinking.lines[..seen].to_vec();
    if shrinking.differing(std::slice::from_ref(&cut))?[0] {
        shrinking.lines = cut;
    }
    let mut length = shrinking.lines.len().div_ceil(at_once);
    while length > 0 && shrinking.has_time() {
        let before = shrinking.lines.len();
        shrinking.leave_out_pieces(length)?;
        let is_done = length == 1 && shrinking.lines.len() == before;
        length = if is_done { 0 } else { length.div_ceil(2) };
    }
    Ok(with_lines(&shrinking.case, &shrinking.lines))
}

struct Shrinking<'a> {
    pair: &'a Pair<'a>,
    case: Case,
    /// What is left. The programs differ on it.
    lines: Vec<Line>,
    at_once: usize,
    /// When it is time to stop.
    end: Instant,
}

impl Shrinking<'_> {
    fn has_time(&self) -> bool {
        Instant::now() < self.end
    }

    /// Whether the programs differ on each of these.
    fn differing(&self, candidates: &[Vec<Line>]) -> Result<Vec<bool>, String> {
        let cases: Vec<Case> = candidates.iter().map(|lines| with_lines(&self.case, lines)).collect();
        let named = cases.into_iter().enumerate().map(|(number, case)| case.renamed(format!("shorter-{number:02}")));
        let played = self.pair.play(&named.collect::<Vec<_>>())?;
        Ok(played.iter().map(|(wanted, got)| wanted != got).collect())
    }

    /// Leaves out each piece of this length that the difference does not need.
    fn leave_out_pieces(&mut self, length: usize) -> Result<(), String> {
        let mut start = 0;
        while start < self.lines.len() && self.has_time() {
            let starts = (start..self.lines.len()).step_by(length).take(self.at_once);
            let pieces: Vec<Range<usize>> = starts.map(|start| start..(start + length).min(self.lines.len())).collect();
            let without: Vec<Vec<Line>> =
                pieces.iter().map(|piece| self.without(std::slice::from_ref(piece))).collect();
            let differing = self.differing(&without)?;
            let needless: Vec<Range<usize>> =
                pieces.iter().zip(differing).filter(|(_, differs)| *differs).map(|(piece, _)| piece.clone()).collect();
            let all_out = self.without(&needless);
            start = match needless.first() {
                None => pieces.last().map_or(self.lines.len(), |piece| piece.end),
                Some(first) if needless.len() == 1 || !self.differing(std::slice::from_ref(&all_out))?[0] => {
                    self.lines = self.without(std::slice::from_ref(first));
                    first.start
                }
                Some(_) => {
                    let end = pieces.last().map_or(0, |piece| piece.end);
                    let kept_behind = self.lines.len() - end;
                    self.lines = all_out;
                    self.lines.len() - kept_behind
                }
            };
        }
        Ok(())
    }

    fn without(&self, pieces: &[Range<usize>]) -> Vec<Line> {
        let is_out = |place: usize| pieces.iter().any(|piece| piece.contains(&place));
        let kept = self.lines.iter().enumerate().filter(|(place, _)| !is_out(*place));
        kept.map(|(_, line)| line.clone()).collect()
    }
}

/// How many lines it takes to see the first difference of the outputs.
fn lines_up_to_difference(wanted: &Played, got: &Played) -> usize {
    let (wanted, got) = (lines_of(&wanted.output), lines_of(&got.output));
    let alike = wanted.iter().zip(&got).take_while(|(wanted, got)| wanted == got).count();
    alike + 1
}

fn numbered_lines(case: &Case, played: &Played) -> Vec<Line> {
    let outputs = lines_of(&played.output);
    let line = |(place, text): (usize, &&[u8])| {
        let output = outputs.get(place).copied().unwrap_or_default();
        let number = |key| number_after(text, key).map(|(_, number)| number);
        let is_submitted = output.starts_with(b"{\"line\":") && contains(output, b"\"stamp\":");
        let next_of = if is_submitted {
            number("at").zip(number("caller")).map(|(at, caller)| Numbered::SubmitsOf { at, caller })
        } else if output.starts_with(b"{\"acknowledged\":") {
            number("at").zip(number("from")).map(|(at, from)| Numbered::Receipts { at, from })
        } else {
            None
        };
        Line { text: text.to_vec(), next_of }
    };
    case.lines().iter().enumerate().map(line).collect()
}

/// The case with these lines alone. Serials and messages are counted anew, so that what was in turn stays in turn.
fn with_lines(case: &Case, lines: &[Line]) -> Case {
    let mut counts: HashMap<Numbered, u32> = HashMap::new();
    let mut schedule = Vec::new();
    for (place, line) in lines.iter().enumerate() {
        if place > 0 {
            schedule.push(b'\n');
        }
        match line.next_of {
            Some(numbered) => {
                let (key, first) = numbered.key();
                let count = counts.entry(numbered).or_default();
                schedule.extend(with_number(&line.text, key, first + *count));
                *count += count_of_commands(&line.text);
            }
            None => schedule.extend_from_slice(&line.text),
        }
    }
    if case.schedule.ends_with(b"\n") {
        schedule.push(b'\n');
    }
    Case { schedule, ..case.clone() }
}

fn with_number(line: &[u8], key: &str, number: u32) -> Vec<u8> {
    match number_after(line, key) {
        Some((range, _)) => [&line[..range.start], number.to_string().as_bytes(), &line[range.end..]].concat(),
        None => line.to_vec(),
    }
}

#[cfg(test)]
mod tests {
    use super::*;
    use std::time::Duration;

    /// Answers each submit with a stamp where its serial is in turn, and a line with `odd` in its own way where a line with
    /// `needed` came before.
    struct Fake {
        odd: &'static str,
    }

    impl Player for Fake {
        fn play(&self, cases: &[Case]) -> Result<Vec<Played>, String> {
            Ok(cases.iter().map(|case| Played::new(0, self.output(case).into_bytes(), String::new())).collect())
        }

        fn cases_at_once(&self) -> usize {
            3
        }

        fn shrink_effort(&self) -> (usize, Duration) {
            (3, Duration::from_secs(60))
        }
    }

    impl Fake {
        fn output(&self, case: &Case) -> String {
            let (mut next, mut came, mut output) = (0, false, String::new());
            for line in case.lines() {
                let serial = number_after(line, "serial").map(|(_, serial)| serial);
                let is_in_turn = serial == Some(next);
                next += u32::from(is_in_turn);
                came |= is_in_turn && contains(line, b"needed");
                let answer = if is_in_turn { "{\"line\":0,\"stamp\":[1,1]}" } else { "{\"refused\":\"BadSerial\"}" };
                output.push_str(if is_in_turn && came && contains(line, b"odd") { self.odd } else { answer });
                output.push('\n');
            }
            output
        }
    }

    #[test]
    fn what_the_difference_needs_is_left() {
        let words = (0..100).map(|number| match number {
            17 => "needed",
            61 => "odd",
            _ => "other",
        });
        let lines = words
            .enumerate()
            .map(|(serial, word)| format!("{{\"at\":1,\"caller\":0,\"serial\":{serial},\"{word}\"}}\n"));
        let case = Case::new("a".to_owned(), None, lines.collect::<String>().into_bytes());
        let (reference, program) = (Fake { odd: "{\"line\":0,\"stamp\":[1,1]}" }, Fake { odd: "differs" });
        let pair = Pair { reference: &reference, program: &program };
        let Ok(left) = shrink(&pair, case) else { panic!("it shrinks") };
        let wanted = "{\"at\":1,\"caller\":0,\"serial\":0,\"needed\"}\n{\"at\":1,\"caller\":0,\"serial\":1,\"odd\"}\n";
        assert_eq!(String::from_utf8_lossy(&left.schedule), wanted);
    }
}
