//! Why a member goes on no further.
use fochillun::{MemberError, OpenError};
use rows::cell::Lost;
use thiserror::Error;

/// Why a member goes on no further.
#[derive(Clone, Debug, PartialEq, Eq, Error)]
pub enum MemberFault {
    /// The founding founds no such member.
    #[error("the founding: {0}")]
    Founding(#[from] OpenError),
    /// Memory ran out. It can be made anew.
    #[error("no memory")]
    NoMemory,
    /// Another process set the cell that this one would: it is the member now.
    #[error("another process set the next cell of this member's row")]
    Fenced,
    /// A cell is not what it has to be.
    #[error(transparent)]
    Lost(#[from] Lost),
    /// A cell has a message that is none, or could not follow those before it.
    #[error("message {number} of member {member}: {why}")]
    Message {
        /// Whose row it stands in.
        member: u32,
        /// Its number there.
        number: u64,
        /// Why it is not taken.
        why: MemberError,
    },
    /// A cell stands behind the seal of its row.
    #[error("message {number} of member {member} stands behind a seal")]
    BehindASeal {
        /// Whose row it stands in.
        member: u32,
        /// Its number there.
        number: u64,
    },
    /// The cell of this number of the first member's row is not what has to be told there of the policy of the generation before.
    #[error("cell {0} of member 1 tells another policy than the generation before has left")]
    OtherDump(u64),
    /// The cell of this number of the member's own row does not say whose its message's commands are.
    #[error("cell {0} has other calls than its message has commands")]
    Calls(u64),
    /// The row of another member ends before what this member's own cells say was taken of it.
    #[error("the row of member {member} has {there} cells, and {taken} were taken of it before")]
    LostEnd {
        /// Whose row it is.
        member: u32,
        /// How many cells it has.
        there: u64,
        /// How many were taken.
        taken: u64,
    },
}

pub(super) fn fault_of(member: u32, number: u64, why: MemberError) -> MemberFault {
    match why {
        MemberError::NoMemory => MemberFault::NoMemory,
        why => MemberFault::Message {
            member,
            number,
            why,
        },
    }
}
