//! A reader of the TOML that a founding file is written in.
//!
//! A byte order mark at the front is skipped. A text is lines of `key = value`, each of another key, with blanks, empty lines and comments. Lines end in a line feed, or
//! a carriage return and a line feed. A key is bare (letters, digits, `_`, `-`) or a string of one line. A value is
//!
//! - a string: basic (`"a"`, with the escapes of TOML 1.1) or literal (`'a'`), of one line or of several (`"""`, `'''`);
//! - a whole number in decimal with or without a sign, or in hexadecimal, octal or binary (`0x`, `0o`, `0b`), with `_`
//!   between digits, that fits in an i64;
//! - a float, `inf`, `nan`, `true` or `false`;
//! - an array of values, over several lines if wanted, with comments and a comma behind the last value if wanted.
//!
//! Dotted keys, tables, inline tables, dates and times are TOML too. None of them can stand in a founding that is taken, and
//! this reader does not know them: a text with one of them is refused as no TOML.

mod numbers;
mod strings;

#[derive(Clone, Debug, PartialEq)]
pub enum Value {
    Whole(i64),
    Text(String),
    List(Vec<Value>),
    /// A float or a truth value. No rule asks which.
    Other,
}

#[derive(Clone, Copy, Debug, PartialEq, Eq)]
pub struct NotToml;

/// The keys and values in the order in which they stand. No key stands twice.
pub type Entries = Vec<(String, Value)>;

/// Arrays nest no deeper than this, so that a hostile text cannot use up the stack.
const DEEPEST: usize = 80;

pub fn read(bytes: &[u8]) -> Result<Entries, NotToml> {
    let text = str::from_utf8(bytes).map_err(|_| NotToml)?;
    let mut reader = Reader { text, bytes, at: 0, depth: 0 };
    reader.take("\u{feff}");
    let mut entries = Entries::new();
    loop {
        reader.skip_lines()?;
        if reader.peek().is_none() {
            return Ok(entries);
        }
        let (key, value) = reader.entry()?;
        if entries.iter().any(|(other, _)| *other == key) {
            return Err(NotToml);
        }
        entries.push((key, value));
        reader.end_of_line()?;
    }
}

struct Reader<'a> {
    text: &'a str,
    bytes: &'a [u8],
    at: usize,
    depth: usize,
}

impl Reader<'_> {
    fn peek(&self) -> Option<u8> {
        self.bytes.get(self.at).copied()
    }

    /// Goes past this text, where it comes next.
    fn take(&mut self, text: &str) -> bool {
        let is_next = self.bytes[self.at..].starts_with(text.as_bytes());
        if is_next {
            self.at += text.len();
        }
        is_next
    }

    fn want(&mut self, text: &str) -> Result<(), NotToml> {
        if self.take(text) { Ok(()) } else { Err(NotToml) }
    }

    /// Goes past the bytes that pass the test, and gives them.
    fn take_while(&mut self, test: impl Fn(u8) -> bool) -> &[u8] {
        let start = self.at;
        while self.peek().is_some_and(&test) {
            self.at += 1;
        }
        &self.bytes[start..self.at]
    }

    fn skip_blanks(&mut self) {
        self.take_while(|byte| matches!(byte, b' ' | b'\t'));
    }

    fn take_line_end(&mut self) -> bool {
        self.take("\n") || self.take("\r\n")
    }

    /// Goes past blanks, comments and line ends.
    fn skip_lines(&mut self) -> Result<(), NotToml> {
        loop {
            self.skip_blanks();
            self.skip_comment();
            if !self.take_line_end() {
                return Ok(());
            }
        }
    }

    /// A comment may hold any characters but control characters other than a tab.
    fn skip_comment(&mut self) {
        if self.take("#") {
            self.take_while(|byte| byte == b'\t' || byte >= b' ' && byte != 0x7f);
        }
    }

    /// What may follow a value: blanks, a comment, and the end of the line or of the text.
    fn end_of_line(&mut self) -> Result<(), NotToml> {
        self.skip_blanks();
        self.skip_comment();
        if self.peek().is_none() || self.take_line_end() { Ok(()) } else { Err(NotToml) }
    }

    fn entry(&mut self) -> Result<(String, Value), NotToml> {
        let key = self.key()?;
        self.skip_blanks();
        self.want("=")?;
        self.skip_blanks();
        Ok((key, self.value()?))
    }

    fn key(&mut self) -> Result<String, NotToml> {
        match self.peek() {
            Some(b'"') => self.basic_string(),
            Some(b'\'') => self.literal_string(),
            _ => {
                let key = self.take_while(|byte| byte.is_ascii_alphanumeric() || matches!(byte, b'_' | b'-'));
                if key.is_empty() { Err(NotToml) } else { Ok(key.iter().copied().map(char::from).collect()) }
            }
        }
    }

    fn value(&mut self) -> Result<Value, NotToml> {
        match self.peek() {
            Some(b'"' | b'\'') => self.string().map(Value::Text),
            Some(b'[') => self.array(),
            _ => {
                let word =
                    self.take_while(|byte| byte.is_ascii_alphanumeric() || matches!(byte, b'_' | b'-' | b'+' | b'.'));
                numbers::read_word(word)
            }
        }
    }

    fn array(&mut self) -> Result<Value, NotToml> {
        if self.depth == DEEPEST {
            return Err(NotToml);
        }
        self.depth += 1;
        self.want("[")?;
        let mut items = Vec::new();
        loop {
            self.skip_lines()?;
            if self.take("]") {
                break;
            }
            items.push(self.value()?);
            self.skip_lines()?;
            if !self.take(",") {
                self.want("]")?;
                break;
            }
        }
        self.depth -= 1;
        Ok(Value::List(items))
    }
}

#[cfg(test)]
mod tests;
