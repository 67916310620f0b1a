//! Setting a message in a member's row that nobody's memory wants first: the seal of one that does not end its row, and the message by which a process
//! takes a member over.
use crate::message::{seal_of, Head, SEAL_CLOCK};
use crate::stop::Stop;
use bytes::Bytes;
use rows::cell::Chain;
use rows::{sure_get, sure_set, Engine, Told};
use serde_json::value::RawValue;

/// A member's row, from its beginning.
#[derive(Clone, Debug)]
pub struct OwnRow {
    /// Its beginning.
    pub chain: Chain,
    /// The member, from 1 on.
    pub member: u32,
    /// How many members the generation has.
    pub members: usize,
}

/// Ends a member's row by a seal in its next free cell, unless it has one. Returns once the row is sealed, by whomever.
///
/// # Errors
/// Where the engine does not let this process do so, or the row is not what it has to be.
pub async fn seal_row(engine: &dyn Engine, row: OwnRow, writer: &str) -> Result<(), Stop> {
    let member = row.member;
    let seal = |last: u64| (last != SEAL_CLOCK).then(|| seal_of(member));
    set_behind(engine, row, writer, u64::MAX, seal).await
}

/// Sets an acknowledgement in a member's row, so that a process which may still be that member, on whatever machine, finds the cell taken that it
/// would set. Where that one, which may be asked much, is first, the next cell is tried. A row that has ended, or has but the seal's cell left, is
/// nobody's to set cells in.
///
/// # Errors
/// As of `seal_row`.
pub(super) async fn take_over(
    engine: &dyn Engine,
    row: OwnRow,
    writer: &str,
    sent_limit: u64,
) -> Result<(), Stop> {
    let member = row.member;
    let tick = |last: u64| {
        let next = last + 1;
        (last != SEAL_CLOCK).then(|| format!(r#"{{"stamp":[{next},{member}]}}"#))
    };
    set_behind(engine, row, writer, sent_limit, tick).await
}

/// Sets the message that is to stand behind the last one of a row, by that one's clock: until it is set, or there is none to be set. `limit` is a
/// number of cells at which no more is set.
async fn set_behind(
    engine: &dyn Engine,
    row: OwnRow,
    writer: &str,
    limit: u64,
    next: impl Fn(u64) -> Option<String>,
) -> Result<(), Stop> {
    let (mut chain, mut last) = (row.chain, 0);
    loop {
        let texts = sure_get(engine, chain.row(), chain.next()).await?;
        let cells = chain.take_all(&texts);
        for cell in cells.map_err(|lost| Stop::Lost(lost.to_string()))? {
            last = Head::of(cell.message.get()).map_or(last, |head| head.clock());
        }
        let message = next(last).filter(|_| chain.next() < limit);
        let Some(message) = message else {
            return Ok(());
        };
        let message = RawValue::from_string(message).expect("a message is JSON");
        let cell = chain.cell(writer, vec![0; row.members], message);
        let text = Bytes::from(serde_json::to_vec(&cell).expect("a cell is JSON"));
        let (name, number) = (chain.row(), chain.next());
        let told = sure_set(engine, name, number, std::slice::from_ref(&text)).await?;
        if told == Told::Set {
            return Ok(());
        }
    }
}
