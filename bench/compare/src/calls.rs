//! The commands of schedules as a program gives them to the library, one after the other, on the founding of the schedule.

use crate::case::Case;
use crate::text::{contains, object_after, objects_after};

/// A line is this, the command's text and a brace, so that the reference can serve it.
pub const HEAD: &str = "{\"at\":1,\"command\":";

/// What a member sends. The library sends nothing.
pub const MOST_COMMANDS: usize = 65_536;

/// What stands in a founding file that may end a member's clock or its list early.
const ENDS_EARLY: [&[u8]; 2] = [b"clock", b"sent_limit"];

/// The founding that a case without a file is played on.
pub const SAMPLE: &str = "version = 1
members = 1
operations = [\"approve\", \"pay\", \"read\"]
objects = [\"invoice\", \"ledger\"]
permissions = [[\"approve\", \"invoice\"], [\"pay\", \"invoice\"], [\"read\", \"ledger\"]]
";

/// The schedules that are played from standard input, as the texts of their commands, bad ones too, where these can be cut out of their
/// lines. Of one whose member may come to an end the founding alone is left.
pub fn cases_of(cases: &[Case]) -> Vec<Case> {
    let played = cases.iter().filter(|case| case.words.first().is_some_and(|word| word == "play"));
    played.filter(|case| case.words.get(2).is_some_and(|word| word == "-")).map(commands_of).collect()
}

fn commands_of(case: &Case) -> Case {
    let lines = if ends_early(case) { Vec::new() } else { case.lines() };
    let commands = lines.into_iter().flat_map(commands_of_line).filter_map(|command| str::from_utf8(command).ok());
    let founding = if case.founding.is_some() { case.words[1].clone() } else { "-".to_owned() };
    Case {
        words: vec!["serve".to_owned(), founding],
        schedule: commands
            .take(MOST_COMMANDS)
            .flat_map(|command| format!("{HEAD}{command}}}\n").into_bytes())
            .collect(),
        is_group: false,
        ..case.clone()
    }
}

/// Whether a member's clock or its list may end early.
pub fn ends_early(case: &Case) -> bool {
    case.founding.as_ref().is_some_and(|founding| ENDS_EARLY.iter().any(|key| contains(founding, key)))
}

fn commands_of_line(line: &[u8]) -> Vec<&[u8]> {
    match objects_after(line, "commands") {
        Some(commands) => commands.into_iter().filter(|command| command.starts_with(b"{")).collect(),
        None => object_after(line, "command").into_iter().collect(),
    }
}

/// The command's text in a line.
pub fn text_of(line: &[u8]) -> Option<&str> {
    str::from_utf8(line).ok()?.strip_prefix(HEAD)?.strip_suffix('}')
}

/// The session, the operation and the object of a text that is the command CheckAccess.
pub fn checked_words(text: &str) -> Option<[String; 3]> {
    let words = words_of(text).filter(|words| words.len() == 8)?;
    let value = |key: &str| words.chunks(2).find(|pair| pair[0] == key).map(|pair| pair[1].clone());
    let is_check = value("name")? == "CheckAccess";
    is_check.then_some([value("session")?, value("operation")?, value("object")?])
}

/// The keys and the texts of an object that has nothing else, in their order. Its escapes are those of names alone.
fn words_of(object: &str) -> Option<Vec<String>> {
    let (mut words, mut rest) = (Vec::new(), object);
    while let Some((_, text)) = rest.split_once('"') {
        let (word, behind) = text.split_once('"')?;
        words.push(unescaped(word)?);
        rest = behind;
    }
    Some(words)
}

/// A text with its escapes read, where these are those of names alone.
pub fn unescaped(word: &str) -> Option<String> {
    let mut parts = word.split("\\u");
    let mut read = parts.next()?.to_owned();
    for part in parts {
        let (digits, others) = part.split_at_checked(4)?;
        read.push(char::from_u32(u32::from_str_radix(digits, 16).ok()?)?);
        read.push_str(others);
    }
    Some(read)
}

#[cfg(test)]
mod tests {
    use super::*;

    #[test]
    fn the_commands_of_lines() {
        let schedule = br#"{"do":"submit","at":1,"command":{"name":"AddUser","user":"}"} }
{"do":"deliver","at":1}
{"do":"batch","commands":[{"name":"A"} ,{"name":"B"}]}
{"command":7}
"#;
        let case = Case::new("a".to_owned(), None, schedule.to_vec());
        let [case] = &cases_of(&[case])[..] else { panic!("one case") };
        let wanted = r#"{"at":1,"command":{"name":"AddUser","user":"}"}}
{"at":1,"command":{"name":"A"}}
{"at":1,"command":{"name":"B"}}
"#;
        assert_eq!(String::from_utf8_lossy(&case.schedule), wanted);
        assert_eq!(case.words, ["serve", "-"]);
    }

    #[test]
    fn the_words_of_a_check() {
        let words = |text| checked_words(text).map(|words| words.join(" "));
        let text = r#"{"object":"o","name":"Check\u0041ccess", "operation" :"p","se\u0073sion":"s"}"#;
        assert_eq!(words(text), Some("s p o".to_owned()));
        assert_eq!(words(r#"{"name":"AddRole","role":"CheckAccess"}"#), None);
        assert_eq!(words(r#"{"name":"CheckAccess","session":"s","operation":"p"}"#), None);
    }
}
