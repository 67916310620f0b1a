//! Rows in etcd, for the processes of several machines: version 3.4 or later, asked by its gateway of JSON over HTTP.
//!
//! A cell is a key. Cells are set by one transaction, which asks that none of them or behind them is there, and that the one before them is.
//! etcd answers it once a majority of the cluster's members have synced it.
mod failure;
mod gateway;
mod keys;
mod messages;
mod options;
mod trim;
mod watch;

pub use hyper::Uri;
pub use options::{Login, Options};

use crate::engine::{Engine, Fault, Tidings, Told};
use crate::name::RowName;
use crate::text::check_texts;
use async_trait::async_trait;
use bytes::Bytes;
use failure::Failure;
use gateway::Gateway;
use keys::Keys;
use messages::{
    Compare, Found, Header, Operation, Range, Ranged, Transacted, Transaction, RANGE, TRANSACTION,
};
use std::sync::atomic::{AtomicU64, Ordering};
use std::sync::Arc;
use watch::{Row, Watching};

/// The most cells that are read at once.
const PAGE: u32 = 1000;

/// Rows in a cluster of etcd.
pub struct Etcd {
    gateway: Arc<Gateway>,
    keys: Keys,
    /// The number of the cluster.
    cluster: u64,
    /// The last revision of the store that is known.
    revision: AtomicU64,
}

impl Etcd {
    /// Opens the rows. It is to be asked, as all else here, where a runtime of tokio runs.
    ///
    /// # Errors
    /// `Refused`, where the options can't be, an endpoint is none of etcd 3.4.21 (3.5.5) or later, or of another cluster than the others, its
    /// certificate is not of the authority for its name, the password is wrong, or the user may not read; `Silent`, where no endpoint answers.
    pub async fn open(options: Options) -> Result<Etcd, Fault> {
        let keys = Keys::of(&options.prefix)?;
        let gateway = Gateway::of(&options)?;
        let etcd = Etcd {
            cluster: gateway.cluster().await?,
            gateway: Arc::new(gateway),
            keys,
            revision: AtomicU64::new(0),
        };
        etcd.may_read().await?;
        Ok(etcd)
    }

    /// Whether the user may read the founding's cell, as whoever runs a member has to.
    async fn may_read(&self) -> Result<(), Fault> {
        let row = RowName::founding();
        let range = Range {
            key: self.keys.cell(&row, 1).into(),
            range_end: self.keys.end(&row).into(),
            limit: 1,
            keys_only: true,
            serializable: true,
        };
        match self.gateway.ask_again::<Ranged>(RANGE, &range).await {
            Err(Failure::Denied(why)) => Err(Fault::Refused(why)),
            // A cluster without a leader may have one later.
            _ => Ok(()),
        }
    }

    /// Sets all of the cells where none from the first on is there, since a trimmed row has its last one alone, and the one before them is.
    /// Where that is not so it counts the first one, all from it on, and all before it.
    fn transaction_of(&self, row: &RowName, first: u64, end: u64, texts: &[Bytes]) -> Transaction {
        let key = |number| Bytes::from(self.keys.cell(row, number));
        let end_of_row = Bytes::from(self.keys.end(row));
        let count = |key, range_end| {
            Operation::Range(Range {
                key,
                range_end,
                limit: 1,
                keys_only: true,
                ..Range::default()
            })
        };
        let mut compare = vec![Compare::none(key(first), end_of_row.clone())];
        if first > 1 {
            compare.push(Compare::there(key(first - 1)));
        }
        let failure = vec![
            count(key(first), Bytes::new()),
            count(key(first), end_of_row),
            count(key(0), key(first)),
        ];
        let put = |(number, text): (u64, &Bytes)| Operation::Put {
            key: key(number),
            value: text.clone(),
        };
        Transaction {
            compare,
            success: (first..end).zip(texts).map(put).collect(),
            failure,
        }
    }

    /// What became of a transaction.
    fn told_by(&self, told: &Transacted) -> Result<Told, Fault> {
        if told.succeeded {
            return Ok(Told::Set);
        }
        let counted = told.responses.iter().map(|each| &each.response_range);
        let counted = counted.map(|range| range.as_ref().map(|range| range.count));
        match counted.collect::<Vec<_>>()[..] {
            [Some(1), ..] => Ok(Told::Taken),
            [Some(0), Some(0), Some(_)] => Ok(Told::Gap),
            // It is removed, with all before it.
            [Some(0), Some(_), Some(0)] => Ok(Told::Taken),
            [Some(0), Some(_), Some(_)] => Err(Fault::Broken(
                "a cell is not there, and one behind it is".to_owned(),
            )),
            _ => {
                tracing::warn!("what etcd answers to a set is not known: {told:?}");
                Ok(Told::Unsure)
            }
        }
    }

    /// What became of a set that was told that the store is full. That one which fills it is told so too, and carried out.
    async fn told_by_full(
        &self,
        row: &RowName,
        first: u64,
        texts: &[Bytes],
        known: u64,
    ) -> Result<Told, Fault> {
        let end = self.keys.cell(row, first + texts.len() as u64);
        let there = match self.page(row, first, end).await {
            Ok(page) => page.kvs,
            Err(broken @ Fault::Broken(_)) => return Err(broken),
            Err(_) => return Ok(Told::Unsure),
        };
        let are_new = there.iter();
        let are_new = are_new.map(|cell| (&cell.value, cell.create_revision > known));
        if there.is_empty() {
            Err(Fault::Full)
        } else if are_new.eq(texts.iter().map(|text| (text, true))) {
            Ok(Told::Set)
        } else {
            Ok(Told::Taken)
        }
    }

    /// The cells from a number on up to a key, as many as are read at once.
    async fn page(&self, row: &RowName, first: u64, end: Vec<u8>) -> Result<Ranged, Fault> {
        let known = self.known();
        let range = Range {
            key: self.keys.cell(row, first).into(),
            range_end: end.into(),
            limit: PAGE,
            ..Range::default()
        };
        let told: Result<Ranged, Failure> = self.gateway.ask_again(RANGE, &range).await;
        let told = told.map_err(Failure::fault)?;
        self.take_header(told.header, known)?;
        let follows = |(number, found): (u64, &Found)| found.key == self.keys.cell(row, number);
        let mut cells = (first..=u64::MAX).zip(&told.kvs);
        match cells.find(|cell| !follows(*cell)) {
            None => Ok(told),
            Some((_, found)) => Err(self.why_gone(row, found).await),
        }
    }

    fn known(&self) -> u64 {
        self.revision.load(Ordering::SeqCst)
    }

    /// Looks at what a reply begins with, whose request was sent when this revision was known.
    ///
    /// # Errors
    /// `Broken`, where it is that of another cluster, or of one that has lost what it had told: revisions only grow.
    fn take_header(&self, header: Header, known: u64) -> Result<(), Fault> {
        if header.cluster_id != self.cluster {
            return Err(Fault::Broken("this is another cluster".to_owned()));
        }
        if header.revision < known {
            let why = format!("revision {known} was told, and {} is", header.revision);
            return Err(Fault::Broken(why));
        }
        self.revision.fetch_max(header.revision, Ordering::SeqCst);
        Ok(())
    }
}

#[async_trait]
impl Engine for Etcd {
    async fn set(&self, row: &RowName, first: u64, texts: &[Bytes]) -> Result<Told, Fault> {
        check_texts(texts)?;
        if first == 0 {
            return Ok(Told::Taken);
        }
        let Some(end) = first.checked_add(texts.len() as u64) else {
            return Ok(Told::Gap);
        };
        let known = self.known();
        let transaction = self.transaction_of(row, first, end, texts);
        match self.gateway.change(TRANSACTION, &transaction).await {
            Ok(told) => {
                let told: Transacted = told;
                self.take_header(told.header, known)?;
                self.told_by(&told)
            }
            Err(Failure::NoSpace) => self.told_by_full(row, first, texts, known).await,
            Err(failure) => failure.of_set(),
        }
    }

    async fn get(&self, row: &RowName, first: u64) -> Result<Vec<Bytes>, Fault> {
        let mut texts = Vec::new();
        let (mut next, mut was_full) = (first.max(1), false);
        loop {
            // etcd looks at each key of a range, however few are asked for: where there are many, a range has no more than that.
            let end = if was_full {
                self.keys.cell(row, next.saturating_add(u64::from(PAGE)))
            } else {
                self.keys.end(row)
            };
            let page = self.page(row, next, end).await?;
            let is_last = !was_full && !page.more;
            was_full = page.kvs.len() == PAGE as usize;
            next = next.saturating_add(page.kvs.len() as u64);
            texts.extend(page.kvs.into_iter().map(|found| found.value));
            if is_last {
                return Ok(texts);
            }
        }
    }

    async fn trim(&self, row: &RowName, last: u64) -> Result<(), Fault> {
        self.remove_before(row, last).await
    }

    async fn follow(&self, row: &RowName) -> Result<Box<dyn Tidings>, Fault> {
        let row = Row {
            gateway: Arc::clone(&self.gateway),
            cluster: self.cluster,
            keys: self.keys.clone(),
            name: row.clone(),
        };
        Ok(Box::new(Watching::of(row).await?))
    }
}
