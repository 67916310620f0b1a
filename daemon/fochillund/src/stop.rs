//! Why a process ends, and with which status.
use crate::founding::FoundingFault;
use crate::row_member::MemberFault;
use rows::{Fault, FollowFault};
use std::io;
use thiserror::Error;

/// Why a member's process ends.
#[derive(Debug, Error)]
pub enum Stop {
    /// It was not started rightly. Whoever starts it again the same way meets the same.
    #[error(transparent)]
    Founding(#[from] FoundingFault),
    /// Another process set the cell that this one would: it is that member now.
    #[error("fenced: another process set the next cell of this member's row")]
    Fenced,
    /// A cell is not what it has to be: rows have lost what was told to be set, or somebody else writes there. Nobody starts it again blindly.
    #[error("lost: {0}")]
    Lost(String),
    /// Rows that it has not read to their end are trimmed: the group is generations further. Started again it begins there.
    #[error("behind: this process read rows of a generation that nobody asks for any more")]
    Behind,
    /// The engine is broken, or full.
    #[error(transparent)]
    Engine(Fault),
    /// Memory ran out.
    #[error("no memory")]
    NoMemory,
    /// The socket of its callers can't be had.
    #[error("the callers' socket: {0}")]
    Socket(io::Error),
    /// Callers can't be answered as is asked for.
    #[error("{0}")]
    Serving(String),
    /// The file that tells other processes that this one runs can't be had.
    #[error("the lock: {0}")]
    Lock(io::Error),
    /// It was asked to end.
    #[error("asked to end")]
    Asked,
}

impl Stop {
    /// The status of the process.
    pub fn status(&self) -> u8 {
        match self {
            Stop::Asked => 0,
            Stop::NoMemory | Stop::Socket(_) | Stop::Lock(_) => 1,
            Stop::Founding(_) | Stop::Serving(_) => 2,
            Stop::Fenced | Stop::Behind => 3,
            Stop::Lost(_) => 4,
            Stop::Engine(_) => 5,
        }
    }

    /// Whether a process that ended with a status is started again: not where the same would come of it, and not where rows were lost.
    pub fn is_mended_by_a_start(status: Option<i32>) -> bool {
        !matches!(status, Some(0 | 2 | 4))
    }
}

impl From<Fault> for Stop {
    fn from(fault: Fault) -> Stop {
        match fault {
            Fault::Trimmed(_) => Stop::Behind,
            fault => Stop::Engine(fault),
        }
    }
}

impl From<MemberFault> for Stop {
    fn from(fault: MemberFault) -> Stop {
        match fault {
            MemberFault::NoMemory => Stop::NoMemory,
            MemberFault::Fenced => Stop::Fenced,
            MemberFault::Founding(why) => FoundingFault::File(why.to_string()).into(),
            lost => Stop::Lost(lost.to_string()),
        }
    }
}

impl From<FollowFault> for Stop {
    fn from(fault: FollowFault) -> Stop {
        match fault {
            FollowFault::Lost(lost) => Stop::Lost(lost.to_string()),
            FollowFault::Engine(fault) => fault.into(),
        }
    }
}
