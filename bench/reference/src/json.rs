//! A reader of JSON texts.
//!
//! It takes what RFC 8259 calls a JSON text, in UTF-8 and without a byte order mark, with these limits: arrays and objects
//! nest at most 127 levels, a `\u` escape of half a surrogate pair stands with its other half, and a number fits in an f64.

use std::borrow::Cow;

#[derive(Clone, Debug, PartialEq)]
pub enum Value<'a> {
    Null,
    Bool,
    /// A number of digits alone that fits in a u64.
    Whole(u64),
    /// Any other number. No rule asks which.
    OtherNumber,
    Text(Cow<'a, str>),
    List(Vec<Value<'a>>),
    Object(Object<'a>),
}

/// The keys and values in the order in which they stand. A key may stand twice.
pub type Object<'a> = Vec<(Cow<'a, str>, Value<'a>)>;

#[derive(Clone, Copy, Debug, PartialEq, Eq)]
pub struct NotJson;

const DEEPEST: usize = 127;

pub fn read(bytes: &[u8]) -> Result<Value<'_>, NotJson> {
    let text = str::from_utf8(bytes).map_err(|_| NotJson)?;
    let mut reader = Reader { text, bytes, at: 0, depth: 0 };
    let value = reader.value()?;
    reader.skip_blanks();
    if reader.at == bytes.len() { Ok(value) } else { Err(NotJson) }
}

struct Reader<'a> {
    text: &'a str,
    bytes: &'a [u8],
    at: usize,
    depth: usize,
}

impl<'a> Reader<'a> {
    fn peek(&self) -> Option<u8> {
        self.bytes.get(self.at).copied()
    }

    /// Goes past this byte, where it comes next.
    fn take(&mut self, byte: u8) -> bool {
        let is_next = self.peek() == Some(byte);
        if is_next {
            self.at += 1;
        }
        is_next
    }

    fn want(&mut self, byte: u8) -> Result<(), NotJson> {
        if self.take(byte) { Ok(()) } else { Err(NotJson) }
    }

    fn skip_blanks(&mut self) {
        while matches!(self.peek(), Some(b' ' | b'\t' | b'\r' | b'\n')) {
            self.at += 1;
        }
    }

    fn value(&mut self) -> Result<Value<'a>, NotJson> {
        self.skip_blanks();
        match self.peek() {
            Some(b'{') => self.nested(Self::object),
            Some(b'[') => self.nested(Self::list),
            Some(b'"') => self.string().map(Value::Text),
            Some(b'-' | b'0'..=b'9') => self.number(),
            Some(b't') => self.word("true", Value::Bool),
            Some(b'f') => self.word("false", Value::Bool),
            Some(b'n') => self.word("null", Value::Null),
            _ => Err(NotJson),
        }
    }

    fn word(&mut self, word: &str, value: Value<'a>) -> Result<Value<'a>, NotJson> {
        if !self.bytes[self.at..].starts_with(word.as_bytes()) {
            return Err(NotJson);
        }
        self.at += word.len();
        Ok(value)
    }

    /// Reads an array or an object, one level deeper.
    fn nested(&mut self, read: fn(&mut Self) -> Result<Value<'a>, NotJson>) -> Result<Value<'a>, NotJson> {
        if self.depth == DEEPEST {
            return Err(NotJson);
        }
        self.depth += 1;
        self.at += 1;
        let value = read(self)?;
        self.depth -= 1;
        Ok(value)
    }

    /// An array from behind its bracket on.
    fn list(&mut self) -> Result<Value<'a>, NotJson> {
        let mut items = Vec::new();
        self.skip_blanks();
        if self.take(b']') {
            return Ok(Value::List(items));
        }
        loop {
            items.push(self.value()?);
            self.skip_blanks();
            if self.take(b']') {
                return Ok(Value::List(items));
            }
            self.want(b',')?;
        }
    }

    /// An object from behind its brace on.
    fn object(&mut self) -> Result<Value<'a>, NotJson> {
        let mut entries = Vec::new();
        self.skip_blanks();
        if self.take(b'}') {
            return Ok(Value::Object(entries));
        }
        loop {
            self.skip_blanks();
            let key = self.string()?;
            self.skip_blanks();
            self.want(b':')?;
            entries.push((key, self.value()?));
            self.skip_blanks();
            if self.take(b'}') {
                return Ok(Value::Object(entries));
            }
            self.want(b',')?;
        }
    }

    fn string(&mut self) -> Result<Cow<'a, str>, NotJson> {
        self.want(b'"')?;
        let plain = self.plain_text();
        if self.take(b'"') {
            return Ok(Cow::Borrowed(plain));
        }
        let mut text = String::from(plain);
        loop {
            self.want(b'\\')?;
            text.push(self.escape()?);
            text.push_str(self.plain_text());
            if self.take(b'"') {
                return Ok(Cow::Owned(text));
            }
        }
    }

    /// The text up to a quote, an escape, a control character or the end.
    fn plain_text(&mut self) -> &'a str {
        let start = self.at;
        while matches!(self.peek(), Some(byte) if byte != b'"' && byte != b'\\' && byte >= b' ') {
            self.at += 1;
        }
        &self.text[start..self.at]
    }

    /// An escape from behind its backslash on.
    fn escape(&mut self) -> Result<char, NotJson> {
        let letter = self.peek().ok_or(NotJson)?;
        self.at += 1;
        Ok(match letter {
            b'"' | b'\\' | b'/' => char::from(letter),
            b'b' => '\u{8}',
            b'f' => '\u{c}',
            b'n' => '\n',
            b'r' => '\r',
            b't' => '\t',
            b'u' => return self.unicode_escape(),
            _ => return Err(NotJson),
        })
    }

    fn unicode_escape(&mut self) -> Result<char, NotJson> {
        let first = self.four_digits()?;
        if !(0xD800..0xDC00).contains(&first) {
            // Half of a pair that comes without its first half is no character.
            return char::from_u32(first).ok_or(NotJson);
        }
        self.want(b'\\')?;
        self.want(b'u')?;
        let second = self.four_digits()?;
        if !(0xDC00..0xE000).contains(&second) {
            return Err(NotJson);
        }
        char::from_u32(0x10000 + ((first - 0xD800) << 10) + (second - 0xDC00)).ok_or(NotJson)
    }

    fn four_digits(&mut self) -> Result<u32, NotJson> {
        let digits = self.bytes.get(self.at..self.at + 4).ok_or(NotJson)?;
        self.at += 4;
        digits.iter().try_fold(0, |number, digit| Ok(number * 16 + char::from(*digit).to_digit(16).ok_or(NotJson)?))
    }

    fn number(&mut self) -> Result<Value<'a>, NotJson> {
        let start = self.at;
        let mut is_whole = !self.take(b'-');
        if !self.take(b'0') {
            self.digits()?;
        }
        if self.take(b'.') {
            self.digits()?;
            is_whole = false;
        }
        if self.take(b'e') || self.take(b'E') {
            if !self.take(b'+') {
                self.take(b'-');
            }
            self.digits()?;
            is_whole = false;
        }
        let text = &self.text[start..self.at];
        if is_whole && let Ok(number) = text.parse() {
            return Ok(Value::Whole(number));
        }
        let fits = text.parse::<f64>().is_ok_and(f64::is_finite);
        if fits { Ok(Value::OtherNumber) } else { Err(NotJson) }
    }

    /// At least one digit.
    fn digits(&mut self) -> Result<(), NotJson> {
        let start = self.at;
        while matches!(self.peek(), Some(b'0'..=b'9')) {
            self.at += 1;
        }
        if self.at > start { Ok(()) } else { Err(NotJson) }
    }
}

#[cfg(test)]
mod tests;
