//! The name of a row.
use std::fmt;
use thiserror::Error;

const LONGEST_NODE: usize = 64;

/// The name of a row: of the founding's one cell, or of a node in a generation.
#[derive(Clone, Debug, PartialEq, Eq, Hash, PartialOrd, Ord)]
pub struct RowName(String);

/// A node's name has 1 to 64 bytes of `A-Z a-z 0-9 _ -`.
#[derive(Clone, Copy, Debug, PartialEq, Eq, Error)]
#[error("a node's name has 1 to 64 bytes of A-Z a-z 0-9 _ -")]
pub struct BadName;

impl RowName {
    /// The row whose one cell is the group's founding.
    pub fn founding() -> RowName {
        RowName("founding".to_owned())
    }

    /// The row of a node in a generation: `<node>/g<generation>`, so that an engine can give each node the right to its own rows alone.
    ///
    /// # Errors
    /// Where the node's name is none.
    pub fn of_node(node: &str, generation: u64) -> Result<RowName, BadName> {
        let is_named = (1..=LONGEST_NODE).contains(&node.len());
        let is_plain = |byte: u8| byte.is_ascii_alphanumeric() || byte == b'_' || byte == b'-';
        if is_named && node.bytes().all(is_plain) {
            Ok(RowName(format!("{node}/g{generation}")))
        } else {
            Err(BadName)
        }
    }

    /// Its text: parts of `A-Z a-z 0-9 _ -`, with a `/` between.
    pub fn as_str(&self) -> &str {
        &self.0
    }
}

impl fmt::Display for RowName {
    fn fmt(&self, f: &mut fmt::Formatter<'_>) -> fmt::Result {
        f.write_str(&self.0)
    }
}

#[cfg(test)]
mod tests {
    use super::{BadName, RowName};

    #[test]
    fn a_row_of_a_node_stands_under_its_node() {
        let row = RowName::of_node("node-1", 7).unwrap();
        assert_eq!(row.as_str(), "node-1/g7");
        assert_ne!(row, RowName::founding());
    }

    #[test]
    fn a_node_is_no_path() {
        for node in ["", ".", "..", "a/b", "a b", "\u{e9}", &"n".repeat(65)] {
            assert_eq!(RowName::of_node(node, 1), Err(BadName), "{node}");
        }
        assert!(RowName::of_node(&"n".repeat(64), 1).is_ok());
    }
}
