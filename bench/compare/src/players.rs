//! The programs that are compared.

mod binary;
#[cfg(feature = "library")]
mod library;
mod tried;

pub use binary::Binary;
#[cfg(feature = "library")]
pub use library::Library;
pub use tried::Tried;

use crate::case::{Case, Played};
use std::time::Duration;

pub trait Player {
    /// Plays the cases, each in a run of its own.
    fn play(&self, cases: &[Case]) -> Result<Vec<Played>, String>;

    /// How many cases it is given at once.
    fn cases_at_once(&self) -> usize;

    /// How many shorter schedules it is given at once, and for how long, to find one with the same difference.
    fn shrink_effort(&self) -> (usize, Duration);
}
