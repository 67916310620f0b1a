//! What is asked of an engine.
use crate::name::RowName;
use async_trait::async_trait;
use bytes::Bytes;
use std::time::Duration;
use thiserror::Error;

/// What became of cells that were to be set.
#[derive(Clone, Copy, Debug, PartialEq, Eq)]
pub enum Told {
    /// All of them are set, by this very call, and stay so whatever is lost.
    Set,
    /// The first of them was set before, by whomever. None is set by this call.
    Taken,
    /// The cell before the first is not set. None is set by this call.
    Gap,
    /// The reply was lost: they may be set, now or later, all or none. [`crate::sure_set`] finds out.
    Unsure,
}

/// Why an engine did not do what was asked. But for `Trimmed` and `Broken` it may later.
#[derive(Clone, Debug, PartialEq, Eq, Error)]
pub enum Fault {
    /// A text is none that a cell can hold: it has a byte that ends a line, or a tab. Nothing is set.
    #[error("the text of a cell is one line, and has no tab")]
    BadText,
    /// There are more cells, or bytes, than one set of this engine has room for. Nothing is set.
    #[error("a set of this engine has at most {0}")]
    TooMuch(&'static str),
    /// There is no room. Nothing is set.
    #[error("the engine is full")]
    Full,
    /// The engine does not let this process do it, or is set up so that what it tells could be lost. Nothing is set, and asking again mends
    /// nothing: an operator does.
    #[error("the engine refuses: {0}")]
    Refused(String),
    /// The engine does not answer.
    #[error("the engine is silent: {0}")]
    Silent(String),
    /// The cells before this number, of which one was asked for, are removed: whoever follows the row is too late.
    #[error("the cells before number {0} are removed")]
    Trimmed(u64),
    /// What the engine told can be relied on no more. The process ends, and nothing that it holds is written again.
    #[error("the engine is broken: {0}")]
    Broken(String),
}

/// Rows of cells. All processes that use the same rows see the same cells.
#[async_trait]
pub trait Engine: Send + Sync {
    /// Sets the cells from number `first` on, counted from 1, to these texts: all of them or none. Never overwrites, and leaves no gap.
    /// `Set` is told only when no loss of power and no failure that the engine is made for can take them back.
    ///
    /// # Errors
    /// Nothing is set then, unless the fault is `Broken`.
    async fn set(&self, row: &RowName, first: u64, texts: &[Bytes]) -> Result<Told, Fault>;

    /// The texts from number `first` on, in order: of each cell whose set was told before this call, and of none that can still be lost.
    ///
    /// # Errors
    /// `Trimmed`, where the cell of number `first` is removed: it tells which one is the first that is left. Else where it can't be told.
    async fn get(&self, row: &RowName, first: u64) -> Result<Vec<Bytes>, Fault>;

    /// Removes the cells before number `last`, which is set: what is left of a row that has ended is its end. That cell and those behind it
    /// stay, and none of the removed ones can be set again, whatever a process remembers of the row: a set whose first number is `last` or
    /// lower is told `Taken`. It may be asked again, and by several processes at once. A process that ends amid it leaves the row whole, or
    /// without some of the first cells.
    ///
    /// # Errors
    /// `Broken`, where cell `last` is not there, though whoever asks has read it. Where it is `Silent`, cells may be removed.
    async fn trim(&self, row: &RowName, last: u64) -> Result<(), Fault>;

    /// Tidings of a row.
    ///
    /// # Errors
    /// Where there are none to be had.
    async fn follow(&self, row: &RowName) -> Result<Box<dyn Tidings>, Fault>;
}

/// Tells when a row may have more cells.
#[async_trait]
pub trait Tidings: Send {
    /// Returns once cells from number `next` on may have been set since the last call, and at the latest after this time. Some engines tell the
    /// texts along, from that number on: such as `get` would show, though others may be there too. Of the others none are told, and whoever follows
    /// a row asks `get` then, as from time to time in any case: so a tiding that was lost delays, and loses nothing.
    async fn wait(&mut self, next: u64, longest: Duration) -> Vec<Bytes>;
}
