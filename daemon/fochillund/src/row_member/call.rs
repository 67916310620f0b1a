//! Calls: what a caller asks, and what it is told.
use fochillun::MemberError;
use rows::cell::{Call, Identity};
use serde_json::value::RawValue;
use thiserror::Error;

/// The most commands of a call, and of a message.
pub const MOST_COMMANDS: usize = 64;

/// The most bytes of the commands of a message, unless one call has more.
pub const MOST_BYTES: usize = 256 * 1024;

/// The longest text of a message that has one call's commands, a stamp of small numbers and the serial 0: greater numbers, the call's id, hashes
/// and what else stands in a cell take less than 4,096 bytes more. The library would take messages of 1,048,576.
pub(super) const LONGEST_MESSAGE: usize = rows::MOST_BYTES - 4096;

/// The most calls that wait to be sent.
pub const MOST_WAITING: usize = 4096;

/// A call of a caller: its commands stand in one message, in their order.
#[derive(Clone, Debug)]
pub struct NewCall {
    /// By what it is known when it is asked again. Without one it is carried out each time.
    pub identity: Option<Identity>,
    /// Its commands, a JSON array of 1 to 64 objects.
    pub commands: Box<RawValue>,
}

/// Why a call is not carried out.
#[derive(Clone, Copy, Debug, PartialEq, Eq, Error)]
pub enum Refusal {
    /// The commands are none.
    #[error("{0}")]
    Commands(MemberError),
    /// The identity is that of a call that has other commands.
    #[error("this id was given to other commands")]
    OtherCommands,
    /// As many calls wait as may.
    #[error("too many calls wait")]
    Busy,
    /// The member has sent as many messages as it may.
    #[error("the member has sent as many messages as it may")]
    Full,
    /// The member's row of the call's generation has ended without it. That is final: it can be asked in the next generation.
    #[error("the generation has ended without this call")]
    NotTaken,
}

/// What a caller is told: the records of its commands, in their order, or why there are none.
pub type Reply = Result<Vec<String>, Refusal>;

/// A call whose commands were read.
#[derive(Debug)]
pub(super) struct ReadCall {
    pub(super) identity: Option<Identity>,
    /// Each command as the library writes it, so that two calls have the same commands where these are the same.
    pub(super) commands: Vec<String>,
}

impl ReadCall {
    pub(super) fn bytes(&self) -> usize {
        self.commands.iter().map(|text| text.len() + 1).sum()
    }

    /// What its cell says of it.
    pub(super) fn told(&self) -> Call {
        Call {
            commands: self.commands.len(),
            identity: self.identity.clone(),
        }
    }
}
