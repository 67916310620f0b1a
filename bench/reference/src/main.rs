//! Plays commands of role-based access control, one JSON object a line, and answers each line.
//!
//! An implementation of the monitor's rules in plain Rust, without proofs and without a line of the monitor, to compare with:
//! what both programs print for one schedule is the same, byte for byte. It plays groups of one to eight members.

mod answer;
mod command;
mod event;
mod founding;
mod json;
mod limits;
mod lines;
mod name;
mod number_set;
mod output;
mod policy;
mod program;
mod table;
mod toml;
mod vocabulary;
mod world;

use std::process::ExitCode;

fn main() -> ExitCode {
    program::run(std::env::args_os().skip(1).collect())
}
