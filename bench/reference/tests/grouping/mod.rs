//! Lines of groups, and what each of them is answered.

use crate::playing::printed;

/// A founding without a vocabulary.
pub fn founding(members: u32, more: &str) -> String {
    format!("version = 1\nmembers = {members}\n{more}\noperations = []\nobjects = []\npermissions = []\n")
}

pub fn add_user(user: &str) -> String {
    format!(r#"{{"name":"AddUser","user":"{user}"}}"#)
}

pub fn submit(at: u32, caller: u32, serial: u32, command: &str) -> String {
    format!(r#"{{"do":"submit","at":{at},"caller":{caller},"serial":{serial},"command":{command}}}"#)
}

pub fn receive(at: u32, from: u32, number: u32) -> String {
    format!(r#"{{"do":"receive","at":{at},"from":{from},"number":{number}}}"#)
}

pub fn deliver(at: u32) -> String {
    format!(r#"{{"do":"deliver","at":{at}}}"#)
}

pub fn played_lines(founding: &str, lines: &[String]) -> Vec<String> {
    let input = lines.iter().map(|line| format!("{line}\n")).collect();
    printed("play", founding, "-", input).lines().map(str::to_owned).collect()
}

/// Plays the lines and compares each answer, which is wanted without the number of its line.
pub fn check(founding: &str, rows: &[(String, &str)]) {
    let lines: Vec<String> = rows.iter().map(|(line, _)| line.clone()).collect();
    let answers = played_lines(founding, &lines);
    assert_eq!(answers.len(), rows.len());
    for (place, ((line, wanted), answer)) in rows.iter().zip(&answers).enumerate() {
        let number = format!("\"line\":{}", place + 1);
        let answer = answer.replace(&format!(",{number}"), "").replace(&format!("{number},"), "");
        assert_eq!(&answer, wanted, "{number}: {line}");
    }
}
