//! Following a row: each of its cells, in order, once.
use crate::cell::{Chain, Lost, Sent};
use crate::engine::{Engine, Fault, Tidings};
use crate::sure::sure_get;
use bytes::Bytes;
use std::sync::Arc;
use std::time::Duration;
use thiserror::Error;
use tokio::time::Instant;

/// After this time a row is read again, also where no tiding came.
pub const SWEEP: Duration = Duration::from_millis(500);

/// Why a row is followed no further.
#[derive(Clone, Debug, PartialEq, Eq, Error)]
pub enum FollowFault {
    /// A cell is not what it has to be.
    #[error(transparent)]
    Lost(#[from] Lost),
    /// The engine is broken.
    #[error(transparent)]
    Engine(#[from] Fault),
}

/// Reads a row as it grows.
pub struct Follower {
    engine: Arc<dyn Engine>,
    chain: Chain,
    tidings: Box<dyn Tidings>,
    /// When it was begun to read all of which there were tidings; none where that is to be done.
    read: Option<Instant>,
}

impl Follower {
    /// Of a row from where it was read to.
    ///
    /// # Errors
    /// Where the engine tells nothing of it.
    pub async fn of(engine: Arc<dyn Engine>, chain: Chain) -> Result<Follower, Fault> {
        let tidings = engine.follow(chain.row()).await?;
        Ok(Follower {
            engine,
            chain,
            tidings,
            read: None,
        })
    }

    /// Where the row was read to.
    pub fn chain(&self) -> &Chain {
        &self.chain
    }

    /// The cells that are there and were not given yet, in order: returns once the engine answers. It may be dropped at any time.
    ///
    /// # Errors
    /// Where one is not what it has to be, or the engine is broken: what is read of the row then is told no more.
    pub async fn there(&mut self) -> Result<Vec<Sent>, FollowFault> {
        let (row, next) = (self.chain.row(), self.chain.next());
        let texts = sure_get(&*self.engine, row, next).await?;
        self.take(&texts)
    }

    fn take(&mut self, texts: &[Bytes]) -> Result<Vec<Sent>, FollowFault> {
        let sent = texts.iter().map(|text| self.chain.take_sent(text));
        Ok(sent.collect::<Result<_, _>>()?)
    }

    /// The next cells, at least one: returns once there is one. It may be dropped at any time, and asked again.
    ///
    /// # Errors
    /// As of `there`.
    pub async fn next(&mut self) -> Result<Vec<Sent>, FollowFault> {
        loop {
            // What was set since it was last read was told, or is found by the sweep: nothing is asked for that is hardly there.
            if let Some(read) = self.read {
                let longest = SWEEP.saturating_sub(read.elapsed());
                let texts = self.tidings.wait(self.chain.next(), longest).await;
                if !texts.is_empty() && read.elapsed() < SWEEP {
                    return self.take(&texts);
                }
                self.read = None;
            }
            let began = Instant::now();
            let cells = self.there().await?;
            self.read = Some(began);
            if !cells.is_empty() {
                return Ok(cells);
            }
        }
    }
}
