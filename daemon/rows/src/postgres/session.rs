//! What is asked over one connection.
use super::faults::{fault_of_read, told_of_set};
use super::table::Table;
use super::target::{Ended, Link, Target, Task};
use super::telling;
use super::tidings::{tiding, Followed};
use super::tls::MakeTls;
use crate::engine::{Fault, Told};
use crate::name::RowName;
use bytes::Bytes;
use futures_util::future::{select, Either};
use futures_util::{pin_mut, TryStreamExt};
use std::future::Future;
use std::sync::atomic::{AtomicU64, Ordering};
use std::sync::Arc;
use std::time::Duration;
use tokio_postgres::types::{ToSql, Type};
use tokio_postgres::{Client, Statement};

/// A connection that is ready.
pub(super) struct Session {
    client: Client,
    warnings: Arc<AtomicU64>,
    tls: MakeTls,
    patience: Duration,
    table: Table,
    insert_next: Statement,
    insert: Statement,
    select: Statement,
    confirm: Statement,
    telling: Telling,
    followed: Arc<Followed>,
    ended: Ended,
    _driver: Task,
}

/// Writes to the log, in a transaction of its own, so that its commit waits for the standbys.
const CONFIRM: &str = "SELECT pg_logical_emit_message(true, 'rows'::text, ''::text)";

const NOTIFY: &str = "SELECT pg_notify($1, $2)";

/// By which statement others are told of a set.
enum Telling {
    /// The schema's function, which tells the texts too.
    Texts(Statement),
    /// NOTIFY, on the channel that anybody may tell on: the numbers alone.
    Numbers(Statement),
}

impl Telling {
    async fn of(client: &Client, schema: &str) -> Result<Telling, tokio_postgres::Error> {
        let there = client.query_one(&telling::is_there(schema), &[]).await?;
        Ok(match there.get(0) {
            true => Telling::Texts(client.prepare(&telling::tell(schema)).await?),
            false => Telling::Numbers(client.prepare(NOTIFY).await?),
        })
    }
}

impl Session {
    pub(super) async fn of(target: &Target, link: Link) -> Result<Session, Fault> {
        let (client, table) = (&link.client, &target.table);
        let types = [Type::TEXT, Type::INT8, Type::BYTEA_ARRAY];
        let types_of_next = [Type::TEXT, Type::INT8, Type::BYTEA];
        let prepared = async {
            Ok((
                client
                    .prepare_typed(&table.insert_next(), &types_of_next)
                    .await?,
                client.prepare_typed(&table.insert(), &types).await?,
                client.prepare_typed(&table.select(), &types[..2]).await?,
                client.prepare(CONFIRM).await?,
                Telling::of(client, table.schema()).await?,
            ))
        };
        let prepared: Result<_, tokio_postgres::Error> = prepared.await;
        let (insert_next, insert, select, confirm, telling) =
            prepared.map_err(|error| fault_of_read(&error))?;
        Ok(Session {
            client: link.client,
            warnings: link.warnings,
            tls: target.tls.clone(),
            patience: target.answer_timeout,
            table: table.clone(),
            insert_next,
            insert,
            select,
            confirm,
            telling,
            followed: Arc::clone(&target.followed),
            ended: link.ended,
            _driver: link.driver,
        })
    }

    pub(super) fn is_open(&self) -> bool {
        !self.client.is_closed()
    }

    /// How many warnings came.
    fn warned(&self) -> u64 {
        self.warnings.load(Ordering::SeqCst)
    }

    /// Sets cells, and tells whether the session is used again. The tidings of the row are sent along, and are a transaction of their own behind the
    /// set's: in the set's own they would take a lock over all commits of the server. They wait for no disk, and nobody waits for them.
    pub(super) async fn set(
        &self,
        row: &RowName,
        first: u64,
        texts: &[Bytes],
    ) -> (Result<Told, Fault>, bool) {
        let Ok(number) = i64::try_from(first) else {
            return (Ok(Told::Gap), true);
        };
        let cells: Vec<&[u8]> = texts.iter().map(AsRef::as_ref).collect();
        let warned = self.warned();
        let last = number.saturating_add(texts.len() as i64 - 1);
        let asked = self.insert(row, number, &cells);
        let asked = self.told_behind(row, (number, last), asked);
        match tokio::time::timeout(self.patience, asked).await {
            Err(_) => {
                tracing::warn!("PostgreSQL: a set of {row} was not answered in time");
                (Ok(Told::Unsure), false)
            }
            // It is committed here, and nobody waited for the standby.
            Ok(Ok(_)) if self.warned() != warned => (Ok(Told::Unsure), true),
            Ok(Ok(0)) => (Ok(Told::Gap), true),
            Ok(Ok(count)) if count == texts.len() as u64 => (Ok(Told::Set), true),
            Ok(Ok(_)) => (Ok(Told::Unsure), true),
            Ok(Err(error)) => {
                let told = told_of_set(&error);
                let is_usual = told == Ok(Told::Taken);
                (told, is_usual)
            }
        }
    }

    /// Gives how many cells were set: all of them or none. One alone is mostly the next of its row, which takes the server less to set; what else it
    /// is, the other statement tells.
    async fn insert(
        &self,
        row: &RowName,
        number: i64,
        cells: &[&[u8]],
    ) -> Result<u64, tokio_postgres::Error> {
        if let [cell] = cells {
            let words: [&(dyn ToSql + Sync); 3] = [&row.as_str(), &number, cell];
            let count = self.client.execute(&self.insert_next, &words).await?;
            if count > 0 {
                return Ok(count);
            }
        }
        let words: [&(dyn ToSql + Sync); 3] = [&row.as_str(), &number, &cells];
        self.client.execute(&self.insert, &words).await
    }

    /// Asks for cells of these numbers to be set, and has others told of them once the server has answered that. Returns with its answer.
    async fn told_behind<T>(
        &self,
        row: &RowName,
        (first, last): (i64, i64),
        asked: impl Future<Output = T>,
    ) -> T {
        let told = self.tell(row, first, last);
        pin_mut!(asked, told);
        match select(asked, told).await {
            Either::Left((answered, _)) => answered,
            Either::Right((_, asked)) => asked.await,
        }
    }

    async fn tell(
        &self,
        row: &RowName,
        first: i64,
        last: i64,
    ) -> Result<u64, tokio_postgres::Error> {
        match &self.telling {
            Telling::Texts(tell) => {
                let deaf = self.followed.deaf_to(row).unwrap_or_default();
                let words: [&(dyn ToSql + Sync); 4] = [&row.as_str(), &first, &last, &deaf];
                self.client.execute(tell, &words).await
            }
            Telling::Numbers(notify) => {
                let tiding = tiding(row, last.unsigned_abs());
                let words: [&(dyn ToSql + Sync); 2] = [&self.table.schema(), &tiding];
                self.client.execute(notify, &words).await
            }
        }
    }

    /// The texts of a row, each of which no failure takes back any more.
    pub(super) async fn get(&self, row: &RowName, first: u64) -> Result<Vec<Bytes>, Fault> {
        let first = i64::try_from(first.max(1)).unwrap_or(i64::MAX);
        let (cells, has_standbys) = self.read(row, first).await?;
        for (expected, (number, _)) in (first..).zip(&cells) {
            if *number != expected {
                return Err(self.why_gone(row, expected).await);
            }
        }
        if has_standbys {
            self.confirm().await?;
        }
        Ok(cells.into_iter().map(|(_, text)| text).collect())
    }

    /// The cells from a number on, and whether the server has standbys, where there is one.
    async fn read(&self, row: &RowName, first: i64) -> Result<(Vec<(i64, Bytes)>, bool), Fault> {
        let words: [&(dyn ToSql + Sync); 2] = [&row.as_str(), &first];
        let rows = self.client.query_raw(&self.select, words);
        let rows = self.in_time(rows).await?;
        pin_mut!(rows);
        let (mut cells, mut has_standbys) = (Vec::new(), false);
        while let Some(cell) = self.in_time(rows.try_next()).await? {
            cells.push((cell.get(0), Bytes::copy_from_slice(cell.get(1))));
            has_standbys = cell.get(2);
        }
        Ok((cells, has_standbys))
    }

    /// Why a cell is not there, though one behind it is.
    async fn why_gone(&self, row: &RowName, number: i64) -> Fault {
        match self.ends(row).await {
            Ok(Some((oldest, _))) if oldest > number => Fault::Trimmed(oldest.unsigned_abs()),
            Ok(_) => Fault::Broken(format!("cell {number} of {row} is gone")),
            Err(fault) => fault,
        }
    }

    /// Removes the cells before a number. A set that began before the last cell was there may see none from its own number on; so each that has
    /// begun is waited for first: then all see that last cell, which stays.
    pub(super) async fn trim(&self, row: &RowName, last: u64) -> Result<(), Fault> {
        let not_there = || Fault::Broken(format!("cell {last} of {row} is not there"));
        let number = i64::try_from(last).map_err(|_| not_there())?;
        match self.ends(row).await? {
            Some((oldest, _)) if oldest >= number => return Ok(()),
            Some((_, newest)) if newest >= number => {}
            _ => return Err(not_there()),
        }
        let (wait, delete) = (self.table.wait_for_sets(), self.table.delete());
        self.in_time(self.client.batch_execute(&wait)).await?;
        let words: [&(dyn ToSql + Sync); 2] = [&row.as_str(), &number];
        self.in_time(self.client.execute(&delete, &words)).await?;
        match self.ends(row).await? {
            Some((oldest, _)) if oldest >= number => Ok(()),
            _ => Err(Fault::Refused(format!(
                "cells of {row} may not be removed by this role"
            ))),
        }
    }

    /// The first and the last number of a row's cells.
    async fn ends(&self, row: &RowName) -> Result<Option<(i64, i64)>, Fault> {
        let ends = self.table.ends();
        let words: [&(dyn ToSql + Sync); 1] = [&row.as_str()];
        let told = self.in_time(self.client.query_one(&ends, &words)).await?;
        let (oldest, newest): (Option<i64>, Option<i64>) = (told.get(0), told.get(1));
        Ok(oldest.zip(newest))
    }

    /// Returns once the standbys have all that was seen on this connection. A cell is seen before they have it where the wait of its set was cancelled,
    /// or the server crashed amid it; and would be lost where a standby is promoted then.
    async fn confirm(&self) -> Result<(), Fault> {
        let warned = self.warned();
        let asked = self.client.execute(&self.confirm, &[]);
        match tokio::time::timeout(self.patience, asked).await {
            Ok(Ok(_)) if self.warned() == warned => Ok(()),
            Ok(Err(error)) => Err(fault_of_read(&error)),
            Ok(Ok(_)) => Err(behind()),
            Err(_) => {
                // Else the server has it wait on, and one more at each try.
                let token = self.client.cancel_token();
                let cancelled = token.cancel_query(self.tls.clone());
                let _ = tokio::time::timeout(self.patience, cancelled).await;
                Err(behind())
            }
        }
    }

    /// Has the connection hear tidings: on a channel of its own, which it gives, or else on that of all.
    pub(super) async fn listen(&self) -> Result<Option<String>, Fault> {
        let schema = self.table.schema();
        if let Telling::Texts(_) = self.telling {
            let hear = telling::hear(schema);
            let heard = self.in_time(self.client.query_one(&hear, &[])).await?;
            let channel: Option<String> = heard.get(0);
            if channel.is_some() {
                return Ok(channel);
            }
        }
        let words = format!(r#"LISTEN "{schema}""#);
        self.in_time(self.client.batch_execute(&words)).await?;
        Ok(None)
    }

    /// Tells by an error that the connection has ended, and nothing before.
    pub(super) fn ended(&self) -> Ended {
        self.ended.clone()
    }

    /// Asks the server nothing but an answer.
    pub(super) async fn is_answered(&self) -> Result<(), Fault> {
        self.in_time(self.client.batch_execute("")).await
    }

    async fn in_time<T>(
        &self,
        asked: impl Future<Output = Result<T, tokio_postgres::Error>>,
    ) -> Result<T, Fault> {
        match tokio::time::timeout(self.patience, asked).await {
            Ok(answered) => answered.map_err(|error| fault_of_read(&error)),
            Err(_) => Err(Fault::Silent("no answer in time".to_owned())),
        }
    }
}

fn behind() -> Fault {
    Fault::Silent("the standbys don't have yet what was read".to_owned())
}
