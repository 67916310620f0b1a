//! A client of the processes of a group, `fochillund`: decisions, searches, commands and the history, as docs/API.md has them.
//!
//! What is granted is what the process told. What is neither granted nor refused is an [`Error`], and never false.
mod address;
mod asked;
mod client;
mod error;
mod history;
mod search;
mod submit;
mod told;
mod wire;

pub use address::{Address, NoAddress};
pub use asked::{Consistency, Evaluation, Rests, Semantic, Subject, SubjectKind};
pub use client::Client;
pub use error::{Error, Refused, Why};
pub use history::History;
pub use search::Search;
pub use submit::Call;
pub use told::{Decision, Denial, Dump, Place, Reason, Record, Stamp};
pub use wire::{Fault, Reply, Wire};
