//! What a process tells of itself.
use crate::engine::EngineState;
use crate::node::{Phase, ShownAt};
use serde::{Deserialize, Serialize};

/// What a member tells of itself.
#[derive(Clone, Debug, Serialize, Deserialize)]
pub struct State {
    /// The release that the process is of; none where that one does not say.
    #[serde(default)]
    pub release: Option<String>,
    /// The generation.
    pub generation: u64,
    /// What it does there.
    pub phase: Phase,
    /// The nodes of its members 1, 2 and so on.
    pub nodes: Vec<String>,
    /// The member that the process is, from 1 on.
    pub member: Option<u32>,
    /// Its node.
    pub node: Option<String>,
    /// The process that is it now.
    pub process: u32,
    /// How many messages of each member it took; of itself, how many it sent.
    pub taken: Vec<u64>,
    /// How many cells are left of its row.
    pub cells_left: Option<u64>,
    /// Up to where what it shows of its policy is right; none where it shows nothing yet.
    pub shown: Option<ShownAt>,
    /// How many records its history has.
    pub records: u64,
    /// The nodes of whom a message is missing, without which the next command can't be delivered.
    pub waits_for: Vec<String>,
    /// Whether a cell of its row is being set.
    pub sets: bool,
    /// How many calls wait to be sent.
    pub queued: usize,
    /// How many are sent and not answered.
    pub sent: usize,
    /// How the engine of the rows does.
    pub engine: EngineState,
}
