//! Rows as files in a folder: the engine that needs no server, for the processes of one machine.
//!
//! A cell is set by one append and one sync. Nobody is shown what was not synced, a folder's new entry included. Whoever meets a sync that
//! failed ends. A row is never kept on a file system of a network.
mod cells;
mod disk;
mod log;
mod record;
mod tidings;

pub use disk::{Disk, OwnDisk, RowFile};

use crate::engine::{Engine, Fault, Tidings, Told};
use crate::name::RowName;
use async_trait::async_trait;
use bytes::Bytes;
use log::Log;
use std::collections::HashMap;
use std::path::PathBuf;
use std::sync::{Arc, Mutex, PoisonError};
use tidings::Marked;

/// Rows in a folder.
pub struct Files {
    folder: PathBuf,
    disk: Arc<dyn Disk>,
    logs: Mutex<HashMap<RowName, Arc<Mutex<Log>>>>,
}

impl Files {
    /// The rows of a folder on the machine's own disk.
    pub fn of(folder: impl Into<PathBuf>) -> Files {
        Files::over(Arc::new(OwnDisk), folder)
    }

    /// The rows of a folder of a disk.
    pub fn over(disk: Arc<dyn Disk>, folder: impl Into<PathBuf>) -> Files {
        Files {
            folder: folder.into(),
            disk,
            logs: Mutex::new(HashMap::new()),
        }
    }

    fn path(&self, row: &RowName) -> PathBuf {
        self.folder.join(row.as_str()).with_extension("row")
    }

    /// The row's file, which is opened once.
    fn log(&self, row: &RowName) -> Result<Arc<Mutex<Log>>, Fault> {
        let mut logs = self.logs.lock().unwrap_or_else(PoisonError::into_inner);
        if let Some(log) = logs.get(row) {
            return Ok(Arc::clone(log));
        }
        let file = self.disk.open(&self.path(row));
        let file = file.map_err(|error| Fault::Broken(format!("{row}: {error}")))?;
        let log = Arc::new(Mutex::new(Log::of(file)));
        logs.insert(row.clone(), Arc::clone(&log));
        Ok(log)
    }

    /// Asks the row's file where a thread may wait for the disk.
    async fn ask<T: Send + 'static>(
        &self,
        row: &RowName,
        ask: impl FnOnce(&mut Log) -> Result<T, Fault> + Send + 'static,
    ) -> Result<T, Fault> {
        let log = self.log(row)?;
        let asked = move || ask(&mut log.lock().unwrap_or_else(PoisonError::into_inner));
        let told = tokio::task::spawn_blocking(asked).await;
        told.unwrap_or_else(|error| Err(Fault::Broken(error.to_string())))
    }
}

#[async_trait]
impl Engine for Files {
    async fn set(&self, row: &RowName, first: u64, texts: &[Bytes]) -> Result<Told, Fault> {
        let texts = texts.to_vec();
        self.ask(row, move |log| log.set(first, &texts)).await
    }

    async fn get(&self, row: &RowName, first: u64) -> Result<Vec<Bytes>, Fault> {
        let log = self.log(row)?;
        if let Some(told) = log.try_lock().ok().and_then(|mut it| it.get_at_once(first)) {
            return told;
        }
        self.ask(row, move |log| log.get(first)).await
    }

    async fn trim(&self, row: &RowName, last: u64) -> Result<(), Fault> {
        self.ask(row, move |log| log.trim(last)).await
    }

    async fn follow(&self, row: &RowName) -> Result<Box<dyn Tidings>, Fault> {
        self.log(row)?;
        let marked = Marked::of(&disk::mark_of(&self.path(row)));
        Ok(Box::new(marked.map_err(|error| {
            Fault::Broken(format!("{row}: {error}"))
        })?))
    }
}
