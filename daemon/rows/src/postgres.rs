//! Rows as one table of a PostgreSQL server, for the processes of several machines.
//!
//! Each cell is a row of the table, whose primary key has it set once. A set is one INSERT, and is told when its commit is on the server's disk and on
//! those of its synchronous standbys; a get shows a cell only when these have it too. So a told cell outlives a crash of the server, and the loss of its
//! machine where a synchronous standby is promoted.
mod faults;
mod hosts;
mod line;
mod session;
mod settings;
mod table;
mod target;
mod telling;
mod tidings;
mod tls;

use crate::engine::{Engine, Fault, Tidings, Told};
use crate::name::RowName;
use crate::text::check_texts;
use async_trait::async_trait;
use bytes::Bytes;
use line::Line;
use std::path::PathBuf;
use std::sync::Arc;
use std::time::Duration;
use target::{Target, Task};
use tidings::Hearing;

/// What the rows of a server are opened with.
#[derive(Clone, Debug)]
pub struct Options {
    /// Where the server is, the role and the database: a URL `postgresql://` or words `key=value`, without a password. Of several hosts the first
    /// that can be written to is taken. A host that is no unix socket and no loopback address is asked over TLS alone, and is named as its certificate
    /// names it; `sslmode` is not heard.
    pub server: String,
    /// The file (PEM) of the authority that the server's certificate is of. Where it is named there is no connection without TLS.
    pub authority: Option<PathBuf>,
    /// The file whose first line is the role's password. It is read at each new connection.
    pub password: Option<PathBuf>,
    /// The schema of the group's table `cells`, and the channel of its tidings: 1 to 63 bytes of `a-z 0-9 _`. Groups that share a database have one each.
    pub schema: String,
    /// How long it may take until there is a connection to a server that was asked for its settings, for each host.
    pub connect_timeout: Duration,
    /// How long an answer may take, of a row that is read the next cell.
    pub answer_timeout: Duration,
}

impl Options {
    /// Of this server, with the schema `fochillun`, 5 seconds for a connection and 10 for an answer.
    pub fn of(server: impl Into<String>) -> Options {
        Options {
            server: server.into(),
            authority: None,
            password: None,
            schema: "fochillun".to_owned(),
            connect_timeout: Duration::from_secs(5),
            answer_timeout: Duration::from_secs(10),
        }
    }
}

/// Rows in a table of a PostgreSQL server, 15 or later.
pub struct Postgres {
    target: Arc<Target>,
    sets: Line,
    hearing: Arc<Hearing>,
    _hears: Task,
}

impl Postgres {
    /// Opens the rows, and makes their table where it is not there. It is to be asked where a runtime of tokio runs.
    ///
    /// # Errors
    /// `Refused`, where the server, its settings, its table or this role's rights are not what they have to be, or its certificate is not of the
    /// authority; `Silent`, where no server that can be written to answers.
    pub async fn open(options: Options) -> Result<Postgres, Fault> {
        let target = Arc::new(Target::of(&options)?);
        target.found().await?;
        let (hearing, hears) = Hearing::begin(Arc::clone(&target)).await?;
        Ok(Postgres {
            sets: Line::of(Arc::clone(&target)),
            hearing,
            _hears: hears,
            target,
        })
    }
}

#[async_trait]
impl Engine for Postgres {
    async fn set(&self, row: &RowName, first: u64, texts: &[Bytes]) -> Result<Told, Fault> {
        check_texts(texts)?;
        let held = self.sets.hold().await?;
        let (told, is_answered) = held.session.set(row, first, texts).await;
        if is_answered {
            held.keep();
        }
        told
    }

    async fn get(&self, row: &RowName, first: u64) -> Result<Vec<Bytes>, Fault> {
        let session = self.hearing.session().await?;
        let texts = session.get(row, first).await;
        if texts.is_err() {
            self.hearing.leave(&session).await;
        }
        texts
    }

    /// By a connection of its own, which ends with it.
    async fn trim(&self, row: &RowName, last: u64) -> Result<(), Fault> {
        let session = self.target.connect().await?;
        session.trim(row, last).await
    }

    async fn follow(&self, row: &RowName) -> Result<Box<dyn Tidings>, Fault> {
        Ok(self.target.followed.follow(row))
    }
}
