//! Names of users, roles, sessions, sets, operations and objects.

use crate::limits;
use std::borrow::Borrow;
use std::rc::Rc;

/// A text of 1 to 64 bytes of letters, digits, `_`, `-` and `.`. Names are ordered by bytes.
#[derive(Clone, Debug, PartialEq, Eq, PartialOrd, Ord, Hash)]
pub struct Name(Rc<str>);

impl Name {
    /// The name with this text, where it is one.
    pub fn read(text: &str) -> Option<Name> {
        let length_fits = (1..=limits::NAME_BYTES).contains(&text.len());
        (length_fits && text.bytes().all(is_name_byte)).then(|| Name(text.into()))
    }

    pub fn as_str(&self) -> &str {
        &self.0
    }
}

impl Borrow<str> for Name {
    fn borrow(&self) -> &str {
        &self.0
    }
}

fn is_name_byte(byte: u8) -> bool {
    byte.is_ascii_alphanumeric() || matches!(byte, b'_' | b'-' | b'.')
}

#[cfg(test)]
mod tests {
    use super::*;

    #[test]
    fn a_name_has_1_to_64_bytes() {
        assert!(Name::read("").is_none());
        assert!(Name::read("a").is_some());
        assert!(Name::read(&"a".repeat(64)).is_some());
        assert!(Name::read(&"a".repeat(65)).is_none());
    }

    #[test]
    fn a_name_has_letters_digits_and_three_signs() {
        assert!(Name::read("Az09_-.").is_some());
        for text in ["a b", "a/b", "a:b", "\u{e9}", "a\n", "@", "[", "`", "{"] {
            assert!(Name::read(text).is_none(), "{text:?}");
        }
    }
}
