//! The library, called in this process through its binding for Rust.

use super::Player;
use crate::calls::{SAMPLE, checked_words, text_of};
use crate::case::{Case, Played};
use fochillun::{CheckError, Monitor};
use std::cell::Cell;
use std::io::Write;
use std::time::Duration;

/// Counts what it was asked.
#[derive(Default)]
pub struct Library {
    pub commands: Cell<u64>,
    /// How many of them were asked by the call for checks too.
    pub checks: Cell<u64>,
}

impl Player for Library {
    fn play(&self, cases: &[Case]) -> Result<Vec<Played>, String> {
        Ok(cases.iter().map(|case| self.play_one(case)).collect())
    }

    fn cases_at_once(&self) -> usize {
        16
    }

    fn shrink_effort(&self) -> (usize, Duration) {
        (16, Duration::from_secs(60))
    }
}

impl Library {
    fn play_one(&self, case: &Case) -> Played {
        let founding = case.founding.as_deref().unwrap_or(SAMPLE.as_bytes());
        let mut monitor = match Monitor::open(founding) {
            Ok(monitor) => monitor,
            // As the reference words it.
            Err(refusal) => return Played::new(1, Vec::new(), format!("rbac_monitor: founding: {refusal:?}\n")),
        };
        let mut output = Vec::new();
        for (place, line) in case.lines().into_iter().enumerate() {
            let number = place + 1;
            let told = text_of(line)
                .map_or(Err("no command".to_owned()), |text| self.ask(&mut monitor, asked_by(place, line, text), text));
            let written = match told {
                Ok(answer) => writeln!(output, "{{\"answer\":{answer},\"line\":{number}}}"),
                Err(refusal) => writeln!(output, "{{\"line\":{number},\"refused\":\"{refusal}\"}}"),
            };
            written.expect("a vector takes all bytes");
        }
        if let Err(fault) = remade(&mut monitor, founding) {
            output.extend(fault.into_bytes());
        }
        Played::new(0, output, String::new())
    }

    /// The answer's text, or why what is asked is no command. A check that the other call answers otherwise shows both.
    fn ask(&self, monitor: &mut Monitor, asked: &str, text: &str) -> Result<String, String> {
        self.commands.set(self.commands.get() + 1);
        let answer = monitor.apply(asked).map_err(|refusal| format!("{refusal:?}"))?.to_owned();
        let Some([session, operation, object]) = checked_words(text) else {
            return Ok(answer);
        };
        self.checks.set(self.checks.get() + 1);
        let checked = text_of_check(monitor.check(&session, &operation, &object));
        Ok(if checked == answer { answer } else { format!("{answer} and {checked}") })
    }
}

/// Each second line is asked whole, and of the others the command alone.
fn asked_by<'l>(place: usize, line: &'l [u8], text: &'l str) -> &'l str {
    str::from_utf8(line).ok().filter(|_| place % 2 == 0).unwrap_or(text)
}

/// The lines that the policy tells make it again: each is answered Done, and then the other policy tells the same.
fn remade(monitor: &mut Monitor, founding: &[u8]) -> Result<(), String> {
    let text = monitor.dump().map_err(|error| error.to_string())?;
    let mut again = Monitor::open(founding).map_err(|error| error.to_string())?;
    for line in text.lines() {
        match again.apply(line) {
            Ok("\"Done\"") => {}
            other => return Err(format!("a dump has {line}, which is answered {other:?}")),
        }
    }
    let told = again.dump().map_err(|error| error.to_string())?;
    if told == text { Ok(()) } else { Err("another policy".to_owned()) }
}

/// The answer's text that a check stands for.
fn text_of_check(checked: Result<bool, CheckError>) -> String {
    match checked {
        Ok(true) => "\"Granted\"".to_owned(),
        Ok(false) => "\"Refused\"".to_owned(),
        Err(denial) => format!("{{\"denied\":\"{denial:?}\",\"number\":{}}}", denial.number()),
    }
}
