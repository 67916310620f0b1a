//! Commands to one member, each delivered at once, and the answers that the rules give them.

use crate::playing::printed;

/// Submits and delivers each command to member 1 of a founding, and gives the answers.
fn answers(founding: &str, commands: &[String]) -> Vec<String> {
    let deliver = r#"{"do":"deliver","at":1}"#;
    let line = |(serial, command): (usize, &String)| {
        let submit = format!(r#"{{"do":"submit","at":1,"caller":0,"serial":{serial},"command":{command}}}"#);
        format!("{submit}\n{deliver}\n")
    };
    let text = printed("play", founding, "-", commands.iter().enumerate().map(line).collect());
    let answer = |line: &str| line.strip_prefix(r#"{"answer":"#)?.split(r#","caller""#).next().map(str::to_owned);
    text.lines().filter_map(answer).collect()
}

/// Plays commands on a founding file, or on the sample founding where the text is empty, and compares their answers.
pub fn check(founding: &str, rows: &[(&str, &str)]) {
    let commands: Vec<String> = rows.iter().map(|(command, _)| command_object(command)).collect();
    let answers = answers(founding, &commands);
    for (place, (command, wanted)) in rows.iter().enumerate() {
        assert_eq!(answers.get(place).map(String::as_str), Some(*wanted), "{place}: {command}");
    }
    assert_eq!(answers.len(), rows.len());
}

/// `AssignUser user=ann role=clerk` as an object. A value in brackets is an array of names, a value of digits a number.
fn command_object(text: &str) -> String {
    let (name, fields) = text.split_once(' ').unwrap_or((text, ""));
    let mut object = format!(r#"{{"name":"{name}""#);
    for field in fields.split_whitespace() {
        let (key, value) = field.split_once('=').expect("a value");
        let value = match value.strip_prefix('[') {
            Some("]") => "[]".to_owned(),
            Some(items) => format!(r#"["{}"]"#, items.trim_end_matches(']').replace(',', r#"",""#)),
            None if value.parse::<u32>().is_ok() => value.to_owned(),
            None => format!(r#""{value}""#),
        };
        object += &format!(r#","{key}":{value}"#);
    }
    object + "}"
}
