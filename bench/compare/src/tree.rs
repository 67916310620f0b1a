//! JSON values as they are written into lines.

use crate::random::Random;

#[derive(Clone)]
pub enum Tree {
    Text(String),
    List(Vec<Tree>),
    Object(Vec<(String, Tree)>),
    /// A number, or any other text that is written as it stands.
    Raw(String),
}

pub fn text(text: &str) -> Tree {
    Tree::Text(text.to_owned())
}

pub fn number(number: impl ToString) -> Tree {
    Tree::Raw(number.to_string())
}

pub fn object(entries: &[(&str, Tree)]) -> Tree {
    Tree::Object(entries.iter().map(|(key, value)| (key.to_string(), value.clone())).collect())
}

impl Tree {
    /// The compact text.
    pub fn compact(&self) -> String {
        let mut written = String::new();
        self.write(&mut written, &mut Style::Compact);
        written
    }

    /// The same value in a text of another look: with blanks, or with escapes, or with its keys in another order.
    pub fn varied(&self, random: &mut Random) -> String {
        let mut tree = self.clone();
        if random.chance(50) {
            tree.shuffle(random);
        }
        let mut written = String::new();
        tree.write(&mut written, &mut Style::Varied(random));
        written
    }

    fn shuffle(&mut self, random: &mut Random) {
        match self {
            Tree::Object(entries) => {
                random.shuffle(entries);
                entries.iter_mut().for_each(|(_, value)| value.shuffle(random));
            }
            Tree::List(items) => items.iter_mut().for_each(|item| item.shuffle(random)),
            Tree::Text(_) | Tree::Raw(_) => {}
        }
    }

    fn write(&self, written: &mut String, style: &mut Style) {
        style.blanks(written);
        match self {
            Tree::Text(text) => style.text(written, text),
            Tree::Raw(text) => written.push_str(text),
            Tree::List(items) => {
                written.push('[');
                for (place, item) in items.iter().enumerate() {
                    written.push_str(if place > 0 { "," } else { "" });
                    item.write(written, style);
                }
                written.push(']');
            }
            Tree::Object(entries) => {
                written.push('{');
                for (place, (key, value)) in entries.iter().enumerate() {
                    written.push_str(if place > 0 { "," } else { "" });
                    if matches!(key.as_str(), "at" | "caller" | "serial" | "from" | "number") {
                        // Always compact, so that a line is easily found to be the event that it is.
                        written.push_str(&format!("\"{key}\":"));
                        value.write(written, &mut Style::Compact);
                        continue;
                    }
                    if key == "commands" {
                        // And so is this key, so that its commands are easily found.
                        written.push_str("\"commands\":");
                    } else {
                        style.blanks(written);
                        style.text(written, key);
                        style.blanks(written);
                        written.push(':');
                    }
                    value.write(written, style);
                }
                written.push('}');
            }
        }
        style.blanks(written);
    }
}

enum Style<'a> {
    Compact,
    Varied(&'a mut Random),
}

impl Style<'_> {
    /// True in `percent` of a hundred cases, and never in the compact style.
    fn chance(&mut self, percent: usize) -> bool {
        match self {
            Style::Compact => false,
            Style::Varied(random) => random.chance(percent),
        }
    }

    fn blanks(&mut self, written: &mut String) {
        if let Style::Varied(random) = self
            && random.chance(15)
        {
            written.push_str(random.pick(&[" ", "\t", "\r", "  "]));
        }
    }

    fn text(&mut self, written: &mut String, text: &str) {
        written.push('"');
        for character in text.chars() {
            let is_escaped = character < ' ' || self.chance(5);
            match character {
                _ if is_escaped => push_escaped(written, character),
                '"' | '\\' => written.extend(['\\', character]),
                _ => written.push(character),
            }
        }
        written.push('"');
    }
}

fn push_escaped(written: &mut String, character: char) {
    let mut units = [0; 2];
    for unit in character.encode_utf16(&mut units) {
        written.push_str(&format!("\\u{unit:04x}"));
    }
}
