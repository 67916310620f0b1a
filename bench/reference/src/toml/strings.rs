//! Strings: basic and literal, of one line and of several.

use super::{NotToml, Reader};

impl Reader<'_> {
    pub(super) fn string(&mut self) -> Result<String, NotToml> {
        if self.take("\"\"\"") {
            self.take_line_end();
            self.basic_lines()
        } else if self.take("'''") {
            self.take_line_end();
            self.literal_lines()
        } else if self.peek() == Some(b'"') {
            self.basic_string()
        } else {
            self.literal_string()
        }
    }

    /// The characters up to the next one of these or a control character other than a tab.
    fn plain_text(&mut self, ends: &[u8]) -> &str {
        let start = self.at;
        self.take_while(|byte| byte == b'\t' || byte >= b' ' && byte != 0x7f && !ends.contains(&byte));
        &self.text[start..self.at]
    }

    pub(super) fn basic_string(&mut self) -> Result<String, NotToml> {
        self.want("\"")?;
        let mut text = String::new();
        loop {
            text.push_str(self.plain_text(b"\"\\"));
            if self.take("\"") {
                return Ok(text);
            }
            self.want("\\")?;
            text.push(self.escape()?);
        }
    }

    pub(super) fn literal_string(&mut self) -> Result<String, NotToml> {
        self.want("'")?;
        let text = self.plain_text(b"'").to_owned();
        self.want("'")?;
        Ok(text)
    }

    /// A basic string of several lines, from behind its quotes on.
    fn basic_lines(&mut self) -> Result<String, NotToml> {
        let mut text = String::new();
        loop {
            text.push_str(self.plain_text(b"\"\\"));
            if self.take("\"\"\"") {
                text.push_str(self.quotes_at_end("\""));
                return Ok(text);
            } else if self.take("\"") {
                text.push('"');
            } else if self.take_line_end() {
                text.push('\n');
            } else {
                self.want("\\")?;
                if !self.take_line_continuation() {
                    text.push(self.escape()?);
                }
            }
        }
    }

    /// A literal string of several lines, from behind its quotes on.
    fn literal_lines(&mut self) -> Result<String, NotToml> {
        let mut text = String::new();
        loop {
            text.push_str(self.plain_text(b"'"));
            if self.take("'''") {
                text.push_str(self.quotes_at_end("'"));
                return Ok(text);
            } else if self.take("'") {
                text.push('\'');
            } else if self.take_line_end() {
                text.push('\n');
            } else {
                return Err(NotToml);
            }
        }
    }

    /// One or two quotes may stand before the three that close a string; they were taken from the front.
    fn quotes_at_end(&mut self, quote: &str) -> &'static str {
        let count = [quote, quote].iter().filter(|quote| self.take(quote)).count();
        match (quote, count) {
            ("\"", 1) => "\"",
            ("\"", 2) => "\"\"",
            ("'", 1) => "'",
            ("'", 2) => "''",
            _ => "",
        }
    }

    /// A backslash at the end of a line takes all blanks and line ends with it.
    fn take_line_continuation(&mut self) -> bool {
        let start = self.at;
        self.skip_blanks();
        if !self.take_line_end() {
            self.at = start;
            return false;
        }
        loop {
            self.skip_blanks();
            if !self.take_line_end() {
                return true;
            }
        }
    }

    /// An escape from behind its backslash on.
    fn escape(&mut self) -> Result<char, NotToml> {
        let letter = self.peek().ok_or(NotToml)?;
        self.at += 1;
        Ok(match letter {
            b'"' | b'\\' => char::from(letter),
            b'b' => '\u{8}',
            b'e' => '\u{1b}',
            b'f' => '\u{c}',
            b'n' => '\n',
            b'r' => '\r',
            b't' => '\t',
            b'x' => return self.code(2),
            b'u' => return self.code(4),
            b'U' => return self.code(8),
            _ => return Err(NotToml),
        })
    }

    fn code(&mut self, length: usize) -> Result<char, NotToml> {
        let digits = self.bytes.get(self.at..self.at + length).ok_or(NotToml)?;
        if !digits.iter().all(u8::is_ascii_hexdigit) {
            return Err(NotToml);
        }
        let code = u32::from_str_radix(&self.text[self.at..self.at + length], 16).map_err(|_| NotToml)?;
        self.at += length;
        char::from_u32(code).ok_or(NotToml)
    }
}
