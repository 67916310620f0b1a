//! What is left of a row, and how its first cells are removed: from the first on, some at a time, so that what is left has no gap.
use super::messages::{Compare, Found, Operation, Range, Ranged, Transacted, Transaction};
use super::messages::{RANGE, TRANSACTION};
use super::{Etcd, Failure};
use crate::engine::Fault;
use crate::name::RowName;
use serde::de::DeserializeOwned;
use serde::Serialize;

/// The most cells that are removed at once: other requests wait meanwhile.
const PIECE: u64 = 1000;

impl Etcd {
    /// Removes the cells before a number.
    pub(super) async fn remove_before(&self, row: &RowName, last: u64) -> Result<(), Fault> {
        let not_there = || Fault::Broken(format!("cell {last} of {row} is not there"));
        let mut oldest = self.oldest(row).await?.ok_or_else(not_there)?;
        while oldest < last {
            let end = last.min(oldest.saturating_add(PIECE));
            if self.remove_piece(row, end, last).await? {
                oldest = end;
                continue;
            }
            // Another process may have removed that one too.
            oldest = self.oldest(row).await?.ok_or_else(not_there)?;
            if oldest <= last {
                return Err(not_there());
            }
        }
        Ok(())
    }

    /// Removes the cells before a number where cell `last` is there, and tells whether it is.
    async fn remove_piece(&self, row: &RowName, end: u64, last: u64) -> Result<bool, Fault> {
        let transaction = Transaction {
            compare: vec![Compare::there(self.keys.cell(row, last).into())],
            success: vec![Operation::Delete {
                key: self.keys.cell(row, 0).into(),
                range_end: self.keys.cell(row, end).into(),
            }],
            failure: Vec::new(),
        };
        let known = self.known();
        let told: Transacted = self.ask(TRANSACTION, &transaction).await?;
        self.take_header(told.header, known)?;
        Ok(told.succeeded)
    }

    /// The number of the first cell that is there.
    async fn oldest(&self, row: &RowName) -> Result<Option<u64>, Fault> {
        let first = self.first_before(row, self.keys.end(row)).await?;
        Ok(first.and_then(|found| self.keys.number(row, &found.key)))
    }

    /// Why a cell is not there, of which a later one was found: where none before is there either, they are removed.
    pub(super) async fn why_gone(&self, row: &RowName, found: &Found) -> Fault {
        let number = self.keys.number(row, &found.key);
        match (number, self.first_before(row, found.key.to_vec()).await) {
            (Some(number), Ok(None)) => Fault::Trimmed(number),
            (_, Err(fault)) => fault,
            _ => Fault::Broken(format!("a cell of {row} is not there")),
        }
    }

    /// The first cell of the row that is there before a key.
    async fn first_before(&self, row: &RowName, end: Vec<u8>) -> Result<Option<Found>, Fault> {
        let known = self.known();
        let range = Range {
            key: self.keys.cell(row, 0).into(),
            range_end: end.into(),
            limit: 1,
            keys_only: true,
            ..Range::default()
        };
        let told: Ranged = self.ask(RANGE, &range).await?;
        self.take_header(told.header, known)?;
        Ok(told.kvs.into_iter().next())
    }

    async fn ask<T: DeserializeOwned>(
        &self,
        path: &str,
        request: &impl Serialize,
    ) -> Result<T, Fault> {
        let told = self.gateway.ask_again(path, request).await;
        told.map_err(Failure::fault)
    }
}
