//! Generations: what each is founded with, by the cells of the founding's row.
use crate::founding::{sent_limit_of, with_members, FoundingFault};
use crate::process::OwnRow;
use crate::row_member::Dump;
use crate::rules;
use bytes::Bytes;
use fochillun::{Monitor, OpenError};
use rows::cell::{hash_of, Chain, Founding, Lost, Why, VERSION};
use rows::RowName;
use thiserror::Error;

/// A generation of a group: who its members are, and what they are founded with.
#[derive(Clone, Debug, PartialEq, Eq)]
pub struct Generation {
    /// Its number, from 1 on.
    pub number: u64,
    /// The nodes of members 1, 2 and so on.
    pub nodes: Vec<String>,
    /// The founding file by which its members are made.
    pub file: String,
    /// The generation whose cell has that file: its own, or an earlier one.
    pub founded_by: u64,
    /// The text of its own cell.
    cell: Bytes,
}

impl Generation {
    /// How many messages a member sends at most.
    pub fn sent_limit(&self) -> u64 {
        sent_limit_of(&self.file)
    }

    /// How many members it has.
    pub fn members(&self) -> u32 {
        self.nodes.len() as u32
    }

    /// The member that lives at a node, from 1 on.
    pub fn member_of(&self, node: &str) -> Option<u32> {
        let at = self.nodes.iter().position(|named| named == node)?;
        Some(at as u32 + 1)
    }

    /// The start of a member's row.
    pub fn chain(&self, member: u32) -> Chain {
        let node = &self.nodes[member as usize - 1];
        chain(self.number, node, member, &self.cell)
    }

    /// A member's row.
    pub fn row(&self, member: u32) -> OwnRow {
        OwnRow {
            chain: self.chain(member),
            member,
            members: self.nodes.len(),
        }
    }
}

fn chain(generation: u64, node: &str, member: u32, cell: &[u8]) -> Chain {
    let row = RowName::of_node(node, generation).expect("nodes have names");
    Chain::of(row, generation, member, cell)
}

/// Why the founding file that was proposed for a generation is not taken.
#[derive(Clone, Debug, PartialEq, Eq, Error)]
pub enum TrialFault {
    /// It founds no policy.
    #[error("the founding file: {0}")]
    Founding(#[from] OpenError),
    /// A command that makes the policy is denied by it.
    #[error("by the founding file {command} is answered {answer}")]
    Denied {
        /// The command.
        command: String,
        /// What it is answered.
        answer: String,
    },
}

/// Whether a founding file lets a policy be as it is: each command of its dump is Done.
///
/// # Errors
/// The first that is not.
pub fn try_founding(file: &str, dump: &[String]) -> Result<(), TrialFault> {
    let mut monitor = Monitor::open(file.as_bytes())?;
    for command in dump {
        let answer = monitor.apply(command);
        let answer = answer.expect("a command of a dump can be read");
        if answer != "\"Done\"" {
            let (command, answer) = (command.clone(), answer.to_owned());
            return Err(TrialFault::Denied { command, answer });
        }
    }
    Ok(())
}

/// The cells of the founding's row, as far as they were read.
#[derive(Clone, Debug)]
pub struct Foundings {
    cells: Vec<(Founding, Bytes)>,
}

/// Why a cell of the founding's row is not taken.
#[derive(Clone, Debug, PartialEq, Eq, Error)]
pub enum CellFault {
    /// It is not what it has to be at its place.
    #[error(transparent)]
    Lost(#[from] Lost),
    /// It is one that this release can't follow.
    #[error(transparent)]
    Differs(#[from] FoundingFault),
}

impl Foundings {
    /// None yet.
    pub fn new() -> Foundings {
        Foundings { cells: Vec::new() }
    }

    /// The number of the last generation that was founded or proposed; 0 where there is none.
    pub fn latest(&self) -> u64 {
        self.cells.len() as u64
    }

    fn lost(&self, why: Why) -> Lost {
        Lost {
            row: RowName::founding(),
            number: self.latest() + 1,
            why,
        }
    }

    fn hash(&self) -> String {
        hash_of(self.cells.last().map_or(b"", |(_, text)| text))
    }

    /// Takes the next cell.
    ///
    /// # Errors
    /// Where it is not what it has to be.
    pub fn take(&mut self, text: &Bytes) -> Result<(), CellFault> {
        let cell: Founding = serde_json::from_slice(text)
            .map_err(|error| self.lost(Why::NoCell(error.to_string())))?;
        if cell.version != VERSION {
            return Err(FoundingFault::Differs("a cell of another version").into());
        }
        if !rules::are_known(&cell.rules) {
            return Err(FoundingFault::Differs("other rules").into());
        }
        if cell.generation != self.latest() + 1 {
            return Err(self.lost(Why::OtherPlace).into());
        }
        if cell.before != self.hash() {
            return Err(self.lost(Why::OtherChain).into());
        }
        self.cells.push((cell, text.clone()));
        Ok(())
    }

    /// The cell that would propose the next generation, and its number. It calls the rules what the cell before does, so that a process of another
    /// release knows them.
    pub fn proposal(&self, nodes: &[String], file: Option<&str>, proposer: &str) -> (u64, Bytes) {
        let rules = self
            .cells
            .last()
            .map_or(rules::NAME, |(cell, _)| &cell.rules);
        let cell = Founding {
            version: VERSION,
            generation: self.latest() + 1,
            before: self.hash(),
            founding: file.map(str::to_owned),
            nodes: nodes.to_owned(),
            rules: rules.to_owned(),
            proposer: proposer.to_owned(),
        };
        let text = serde_json::to_vec(&cell).expect("a founding is JSON");
        (cell.generation, Bytes::from(text))
    }

    /// The nodes of a generation.
    pub fn nodes(&self, number: u64) -> &[String] {
        &self.cells[number as usize - 1].0.nodes
    }

    /// The row of a node in a generation; none where it is no member there.
    pub fn row_of(&self, number: u64, node: &str) -> Option<OwnRow> {
        let nodes = self.nodes(number);
        let at = nodes.iter().position(|named| named == node)?;
        let member = at as u32 + 1;
        Some(OwnRow {
            chain: chain(number, node, member, self.text(number)),
            member,
            members: nodes.len(),
        })
    }

    /// The text of a generation's cell.
    pub fn text(&self, number: u64) -> &Bytes {
        &self.cells[number as usize - 1].1
    }

    /// The first generation, which begins with nothing.
    pub fn first(&self) -> Generation {
        self.generation(1, 1)
    }

    /// A generation, where it is known which one's cell has its founding file.
    pub fn generation(&self, number: u64, founded_by: u64) -> Generation {
        let (cell, text) = &self.cells[number as usize - 1];
        let file = self.cells[founded_by as usize - 1].0.founding.as_deref();
        let file = file.expect("a cell that founds has a file");
        Generation {
            number,
            nodes: cell.nodes.clone(),
            file: with_members(file, cell.nodes.len()),
            founded_by,
            cell: text.clone(),
        }
    }

    /// The generation of this number, behind one that left a policy of which this is the dump. Where a new founding file was proposed that lets the
    /// policy be as it is, it has that one, and else that of the generation before.
    pub fn behind(
        &self,
        before: &Generation,
        number: u64,
        dump: Vec<String>,
    ) -> (Generation, Dump) {
        let own = self
            .has_file(number)
            .then(|| self.generation(number, number));
        let own = own.filter(|own| match try_founding(&own.file, &dump) {
            Ok(()) => true,
            Err(why) => {
                tracing::info!("generation {number} has the founding file of before: {why}");
                false
            }
        });
        let generation = own.unwrap_or_else(|| self.generation(number, before.founded_by));
        let founded_by = generation.founded_by;
        let commands = dump;
        (
            generation,
            Dump {
                commands,
                founded_by,
            },
        )
    }

    /// Whether a founding file was proposed with a generation.
    pub fn has_file(&self, number: u64) -> bool {
        self.cells[number as usize - 1].0.founding.is_some()
    }
}

impl Default for Foundings {
    fn default() -> Foundings {
        Foundings::new()
    }
}
