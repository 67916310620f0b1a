//! A member of a group as a process of its own, over rows of set-once cells.
//!
//! The library decides: the order of commands, what is acknowledged, and each answer. What is here moves messages: [`RowMember`] sets each of its
//! member's in the member's row before anything rests on it, and takes those of the others from theirs.
pub mod access;
pub mod answer;
pub mod ask;
pub mod callers;
pub mod decision_log;
pub mod engine;
pub mod founding;
pub mod generation;
pub mod group;
pub mod message;
pub mod metrics;
pub mod node;
mod policy;
pub mod policy_questions;
pub mod process;
pub mod propose;
pub mod row_member;
pub mod rules;
mod stop;

pub use row_member::{check_ends, RowMember};
pub use stop::Stop;
