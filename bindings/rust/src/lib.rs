//! A policy of ANSI INCITS 359-2004 in this process, and one member of a group that keeps such a policy alike in several processes: the
//! proved library of Fochillun behind safe types.
//!
//! The feature `policy` has `Monitor`, one policy, and `Pool`, one that many threads check side by side; the feature `member` has
//! `Member`. Both are on by default, and each stands alone.
#[cfg(not(any(feature = "policy", feature = "member")))]
compile_error!("one of the features `policy` and `member` has to be on");

mod check;
mod errors;
#[cfg(feature = "member")]
mod member;
#[cfg(feature = "policy")]
mod monitor;
mod place;
#[cfg(feature = "policy")]
mod pool;
mod subjects;
mod sys;
mod text;

#[cfg(feature = "policy")]
pub use errors::ApplyError;
pub use errors::{CheckError, DumpError, OpenError, SubjectsError};
#[cfg(feature = "member")]
pub use errors::{MemberError, RestoreError};
#[cfg(feature = "member")]
pub use member::{Member, Waiting};
#[cfg(feature = "policy")]
pub use monitor::Monitor;
#[cfg(feature = "policy")]
pub use pool::Pool;
pub use subjects::Subjects;
