//! What a cell of a row says: one line of JSON.
use crate::name::RowName;
use bytes::Bytes;
use ring::digest::{digest, SHA256};
use serde::de::IgnoredAny;
use serde::{Deserialize, Serialize};
use serde_json::value::RawValue;
use thiserror::Error;

/// The version of all cells. A reader takes no other.
pub const VERSION: u32 = 2;

/// A cell of the founding's row: cell G says what generation G is founded with. Whoever joins with other rules stops.
#[derive(Clone, Debug, PartialEq, Eq, Serialize, Deserialize)]
#[serde(deny_unknown_fields)]
pub struct Founding {
    /// [`VERSION`].
    pub version: u32,
    /// The generation: the cell's own number.
    pub generation: u64,
    /// The hash of the text of the cell before; of the first one, the hash of nothing.
    pub before: String,
    /// The text of the founding file, where this generation has another than the one before; the first one has one.
    #[serde(default, skip_serializing_if = "Option::is_none")]
    pub founding: Option<String>,
    /// The nodes of members 1, 2 and so on.
    pub nodes: Vec<String>,
    /// By which rules members answer, and what stands in their rows: a name, so that no two processes that differ in these make one group.
    pub rules: String,
    /// Who proposed it: a word that nobody else has. Of the first generation it is empty, so that all who found a group found the same.
    #[serde(default, skip_serializing_if = "String::is_empty")]
    pub proposer: String,
}

/// A cell of a member's row.
#[derive(Debug, Serialize, Deserialize)]
#[serde(deny_unknown_fields)]
pub struct Cell {
    /// [`VERSION`].
    pub version: u32,
    /// The generation of the group.
    pub generation: u64,
    /// The member, from 1 on.
    pub member: u32,
    /// The cell's own number in the row, from 1 on: that of the message.
    pub number: u64,
    /// The hash of the text of the cell before; of the first one's, of the founding's cell.
    pub before: String,
    /// A word that no other process has, nor this one after a restart: so a cell that holds just this text was set by this process.
    pub writer: String,
    /// Up to which message the rows of members 1, 2 and so on were taken.
    pub taken: Vec<u64>,
    /// The calls whose commands the message has, in their order.
    #[serde(default, skip_serializing_if = "Vec::is_empty")]
    pub calls: Vec<Call>,
    /// Where the message has commands of the dump by which the generation begins: which.
    #[serde(default, skip_serializing_if = "Option::is_none")]
    pub dump: Option<DumpPart>,
    /// The message, by its text.
    pub message: Box<RawValue>,
}

/// A part of the dump that member 1 of a generation, from the second on, sends before anything else: the policy that the last one left.
#[derive(Clone, Copy, Debug, PartialEq, Eq, Serialize, Deserialize)]
#[serde(deny_unknown_fields)]
pub struct DumpPart {
    /// How many of its commands stand in cells before this one.
    pub first: usize,
    /// How many commands it has. A message without any is all of a dump that has none.
    pub total: usize,
    /// The generation whose cell of the founding's row has the founding file of this one: its own, or an earlier one.
    pub founded_by: u64,
}

/// What the cell of another member brings. Whose calls its commands were, that member alone asks, when it is made anew.
#[derive(Debug)]
pub struct Sent {
    /// The cell's number in the row.
    pub number: u64,
    /// Up to which message that member had taken the rows of members 1, 2 and so on.
    pub taken: Vec<u64>,
    /// Where it has commands of the dump: which.
    pub dump: Option<DumpPart>,
    /// The message, by its text.
    pub message: Box<RawValue>,
}

/// A cell, as far as another member reads it.
#[derive(Deserialize)]
#[serde(deny_unknown_fields)]
struct SentCell<'t> {
    version: u32,
    generation: u64,
    member: u32,
    number: u64,
    #[serde(borrow)]
    before: &'t str,
    #[serde(rename = "writer")]
    _writer: IgnoredAny,
    taken: Vec<u64>,
    #[serde(default, rename = "calls")]
    _calls: IgnoredAny,
    #[serde(default)]
    dump: Option<DumpPart>,
    #[serde(borrow)]
    message: &'t RawValue,
}

/// A call of a caller, whose commands stand together in one message.
#[derive(Clone, Debug, PartialEq, Eq, Serialize, Deserialize)]
#[serde(deny_unknown_fields)]
pub struct Call {
    /// How many commands it has.
    pub commands: usize,
    /// By what it can be asked again.
    #[serde(default, skip_serializing_if = "Option::is_none")]
    pub identity: Option<Identity>,
}

/// By what a call can be asked again, in its generation, at its member: there no two calls have the same one.
#[derive(Clone, Debug, PartialEq, Eq, Hash, Serialize, Deserialize)]
#[serde(deny_unknown_fields)]
pub struct Identity {
    /// Who asked, as the process knows its callers.
    pub caller: String,
    /// What the caller named the call.
    pub id: String,
}

/// The hash of a cell's text: SHA-256, in hexadecimal.
pub fn hash_of(text: &[u8]) -> String {
    hex::encode(digest(&SHA256, text))
}

/// A cell that is not what it has to be at its place. An engine that shows one has lost what it had told, or somebody else writes there: the
/// process stops, and is not started again blindly.
#[derive(Clone, Debug, PartialEq, Eq, Error)]
#[error("cell {number} of {row} {why}")]
pub struct Lost {
    /// The row.
    pub row: RowName,
    /// The number of the cell's place.
    pub number: u64,
    /// What is wrong with it.
    pub why: Why,
}

/// What is wrong with a cell.
#[derive(Clone, Debug, PartialEq, Eq, Error)]
pub enum Why {
    /// The text is no cell of this version, for this reason.
    #[error("is none: {0}")]
    NoCell(String),
    /// It is the cell of another place.
    #[error("is that of another place")]
    OtherPlace,
    /// It does not follow the cell before it.
    #[error("does not follow the one before it")]
    OtherChain,
}

/// Where a row was read to, and what its next cell has to be.
#[derive(Clone, Debug)]
pub struct Chain {
    row: RowName,
    generation: u64,
    member: u32,
    next: u64,
    before: String,
}

impl Chain {
    /// The start of a member's row, behind the founding's cell of this text.
    pub fn of(row: RowName, generation: u64, member: u32, founding: &[u8]) -> Chain {
        Chain {
            row,
            generation,
            member,
            next: 1,
            before: hash_of(founding),
        }
    }

    /// The row.
    pub fn row(&self) -> &RowName {
        &self.row
    }

    /// The number of the next cell.
    pub fn next(&self) -> u64 {
        self.next
    }

    /// The hash that the next cell has to name.
    pub fn before(&self) -> &str {
        &self.before
    }

    /// The next cell, with a message of the member that has no calls and no dump.
    pub fn cell(&self, writer: &str, taken: Vec<u64>, message: Box<RawValue>) -> Cell {
        Cell {
            version: VERSION,
            generation: self.generation,
            member: self.member,
            number: self.next,
            before: self.before.clone(),
            writer: writer.to_owned(),
            taken,
            calls: Vec::new(),
            dump: None,
            message,
        }
    }

    /// Takes the text of the next cell.
    ///
    /// # Errors
    /// Where it is not what it has to be. Nothing was taken then.
    pub fn take(&mut self, text: &[u8]) -> Result<Cell, Lost> {
        let cell: Cell = self.read(text)?;
        self.check(
            cell.version,
            (cell.generation, cell.member, cell.number),
            &cell.before,
        )?;
        self.follow(text);
        Ok(cell)
    }

    /// Takes the texts of the next cells, in order.
    ///
    /// # Errors
    /// Where one is not what it has to be. Those before it were taken then.
    pub fn take_all(&mut self, texts: &[Bytes]) -> Result<Vec<Cell>, Lost> {
        texts.iter().map(|text| self.take(text)).collect()
    }

    /// Takes the text of the next cell of another member's row.
    ///
    /// # Errors
    /// As of `take`.
    pub fn take_sent(&mut self, text: &[u8]) -> Result<Sent, Lost> {
        let cell: SentCell<'_> = self.read(text)?;
        self.check(
            cell.version,
            (cell.generation, cell.member, cell.number),
            cell.before,
        )?;
        self.follow(text);
        Ok(Sent {
            number: cell.number,
            taken: cell.taken,
            dump: cell.dump,
            message: cell.message.to_owned(),
        })
    }

    /// Goes on behind a cell that [`Chain::cell`] has made of it, by its text.
    pub fn follow(&mut self, text: &[u8]) {
        self.before = hash_of(text);
        self.next += 1;
    }

    fn read<'t, T: Deserialize<'t>>(&self, text: &'t [u8]) -> Result<T, Lost> {
        let read = serde_json::from_slice(text);
        read.map_err(|error| self.lost(Why::NoCell(error.to_string())))
    }

    /// Whether a cell of this version, that says that it stands at this place behind this hash, is the next one.
    fn check(&self, version: u32, place: (u64, u32, u64), before: &str) -> Result<(), Lost> {
        if version != VERSION {
            let why = format!("it is of version {version}");
            return Err(self.lost(Why::NoCell(why)));
        }
        if place != (self.generation, self.member, self.next) {
            return Err(self.lost(Why::OtherPlace));
        }
        if before != self.before {
            return Err(self.lost(Why::OtherChain));
        }
        Ok(())
    }

    fn lost(&self, why: Why) -> Lost {
        Lost {
            row: self.row.clone(),
            number: self.next,
            why,
        }
    }
}

#[cfg(test)]
mod tests {
    use super::{hash_of, Cell, Chain, Why};
    use crate::name::RowName;
    use serde_json::value::RawValue;

    const FOUNDING: &[u8] = b"the founding's cell";

    fn chain() -> Chain {
        Chain::of(RowName::of_node("n2", 1).unwrap(), 1, 2, FOUNDING)
    }

    fn next_cell(chain: &Chain) -> Cell {
        let message = RawValue::from_string(r#"{"stamp":[1,2]}"#.to_owned()).unwrap();
        chain.cell("w", vec![0, 0], message)
    }

    fn text(cell: &Cell) -> Vec<u8> {
        serde_json::to_vec(cell).unwrap()
    }

    #[test]
    fn cells_follow_one_another_from_the_founding_on() {
        let mut chain = chain();
        for _ in 1..4 {
            let next = next_cell(&chain);
            let taken = chain.take(&text(&next)).unwrap();
            assert_eq!(taken.message.get(), r#"{"stamp":[1,2]}"#);
        }
        assert_eq!(chain.next(), 4);
    }

    #[test]
    fn a_cell_of_another_place_or_chain_is_not_taken() {
        let first = next_cell(&chain());
        let lost = |change: fn(&mut Cell)| {
            let mut changed: Cell = serde_json::from_slice(&text(&first)).unwrap();
            change(&mut changed);
            let mut chain = chain();
            let lost = chain.take(&text(&changed)).unwrap_err();
            assert_eq!(lost.to_string().split(" of n2/g1 ").next(), Some("cell 1"));
            chain.take(&text(&first)).unwrap();
            lost.why
        };
        assert_eq!(lost(|cell| cell.generation = 2), Why::OtherPlace);
        assert_eq!(lost(|cell| cell.member = 1), Why::OtherPlace);
        assert_eq!(lost(|cell| cell.number = 2), Why::OtherPlace);
        assert_eq!(
            lost(|cell| cell.before = hash_of(b"other")),
            Why::OtherChain
        );
        assert!(matches!(lost(|cell| cell.version = 1), Why::NoCell(_)));
    }

    #[test]
    fn what_is_no_cell_is_not_taken() {
        let more = String::from_utf8(text(&next_cell(&chain()))).unwrap();
        let more = more.replacen('{', r#"{"colour":1,"#, 1);
        for told in ["", "{}", "nothing", r#"{"version":1}"#, &more] {
            let lost = chain().take(told.as_bytes()).unwrap_err();
            assert!(matches!(lost.why, Why::NoCell(_)), "{told}");
        }
    }
}
