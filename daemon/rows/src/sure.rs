//! Setting and reading cells over an engine that may be silent, and whose replies can be lost.
use crate::engine::{Engine, Fault, Told};
use crate::name::RowName;
use bytes::Bytes;
use std::time::Duration;

const FIRST_PAUSE: Duration = Duration::from_millis(20);
const LONGEST_PAUSE: Duration = Duration::from_millis(500);

/// Sets cells, and asks until it is known what became of them. Each text names its writer, by a nonce that no other process has: so a cell
/// that holds just this text was set by this very writer, perhaps by a try whose reply was lost. Another text is never set at these
/// numbers by who calls this. It ends only when it is sure; a caller that waits no longer has to end the process.
///
/// # Errors
/// `BadText`, `TooMuch`, `Full` and `Refused`, where nothing is set, and `Broken`. `Trimmed`, where the row has ended and is trimmed since the
/// first try: whether that was carried out is known no more. A silent engine is asked again.
pub async fn sure_set(
    engine: &dyn Engine,
    row: &RowName,
    first: u64,
    texts: &[Bytes],
) -> Result<Told, Fault> {
    let mut pause = FIRST_PAUSE;
    let mut was_tried = false;
    loop {
        match engine.set(row, first, texts).await {
            Ok(Told::Taken) if was_tried => {
                let there = sure_get(engine, row, first).await?;
                let is_own = there.starts_with(texts);
                return Ok(if is_own { Told::Set } else { Told::Taken });
            }
            Ok(Told::Unsure) | Err(Fault::Silent(_)) => was_tried = true,
            // What was tried before may still be set.
            Err(Fault::Full) if was_tried => {}
            told => return told,
        }
        tokio::time::sleep(pause).await;
        pause = LONGEST_PAUSE.min(pause * 2);
    }
}

/// Removes the cells before number `last`: returns once the engine answers.
///
/// # Errors
/// As of `trim`, but that a silent engine is asked again.
pub async fn sure_trim(engine: &dyn Engine, row: &RowName, last: u64) -> Result<(), Fault> {
    let mut pause = FIRST_PAUSE;
    loop {
        match engine.trim(row, last).await {
            Err(Fault::Silent(_)) => tokio::time::sleep(pause).await,
            told => return told,
        }
        pause = LONGEST_PAUSE.min(pause * 2);
    }
}

/// The texts from a number on: returns once the engine answers. A row that can't be read is none that is empty.
///
/// # Errors
/// As of `get`, but that a silent engine is asked again.
pub async fn sure_get(engine: &dyn Engine, row: &RowName, first: u64) -> Result<Vec<Bytes>, Fault> {
    let mut pause = FIRST_PAUSE;
    loop {
        match engine.get(row, first).await {
            Err(Fault::Silent(_)) => tokio::time::sleep(pause).await,
            told => return told,
        }
        pause = LONGEST_PAUSE.min(pause * 2);
    }
}
