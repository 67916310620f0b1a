//! Where a group's rows are, and what a process hears of them.
use async_trait::async_trait;
use bytes::Bytes;
use clap::Args;
use rows::etcd::{Etcd, Login};
use rows::postgres::Postgres;
use rows::{etcd, postgres, Engine, Fault, Files, RowName, Tidings, Told};
use serde::{Deserialize, Serialize};
use std::path::{Path, PathBuf};
use std::sync::atomic::{AtomicU64, Ordering};
use std::sync::{Arc, Mutex, PoisonError};
use std::time::{Duration, Instant};

/// By which words a process finds the rows.
#[derive(Args, Clone, Debug)]
pub struct Place {
    /// Where the rows are: a folder of this machine, by default --folder; http://HOST:PORT or https://HOST:PORT, of one or more members of an
    /// etcd, with a comma between; or postgresql://ROLE@HOST/DATABASE
    #[arg(long)]
    rows: Option<String>,
    /// The group's name among those that share an etcd or a database: the prefix of its keys, or its schema
    #[arg(long, default_value = "fochillun")]
    group: String,
    /// The file (PEM) of the authority that the engine's certificate is of
    #[arg(long)]
    authority: Option<PathBuf>,
    /// The user of etcd. Of PostgreSQL the role stands in --rows
    #[arg(long)]
    user: Option<String>,
    /// The file whose first line is the password of the user or role
    #[arg(long)]
    password_file: Option<PathBuf>,
}

/// What may be an engine of another machine: the words before `://`.
const PROTOCOLS: [&str; 4] = ["http://", "https://", "postgres://", "postgresql://"];

impl Place {
    /// Rows as files of a folder.
    pub fn folder(folder: &Path) -> Place {
        Place {
            rows: Some(folder.display().to_string()),
            group: "fochillun".to_owned(),
            authority: None,
            user: None,
            password_file: None,
        }
    }

    /// Opens the rows, those of files in this folder where nothing else is said.
    ///
    /// # Errors
    /// `Refused`, where the words name no engine, or it lets nobody in so; `Silent`, where it does not answer.
    pub async fn open(&self, folder: &Path) -> Result<Arc<dyn Engine>, Fault> {
        let rows = self.rows.as_deref().unwrap_or_default();
        match PROTOCOLS.iter().position(|named| rows.starts_with(named)) {
            Some(0 | 1) => Ok(Arc::new(Etcd::open(self.of_etcd(rows)?).await?)),
            Some(_) => Ok(Arc::new(Postgres::open(self.of_postgres(rows)?).await?)),
            None if rows.contains("://") => Err(refused("--rows names no engine that is known")),
            None if self.authority.is_some() || self.password_file.is_some() => {
                Err(refused("files have no authority and no password"))
            }
            None if rows.is_empty() => Ok(Arc::new(Files::of(folder))),
            None => Ok(Arc::new(Files::of(rows))),
        }
    }

    fn of_etcd(&self, rows: &str) -> Result<etcd::Options, Fault> {
        let endpoint = |text: &str| {
            let uri = text.parse();
            uri.map_err(|error| refused(&format!("{text}: {error}")))
        };
        let endpoints = rows.split(',').map(endpoint);
        let mut options = etcd::Options::of(endpoints.collect::<Result<_, _>>()?, &self.group);
        options.authority = self.authority.clone();
        options.login = match (&self.user, &self.password_file) {
            (None, None) => None,
            (Some(user), Some(password)) => Some(Login {
                user: user.clone(),
                password: password.clone(),
            }),
            _ => return Err(refused("a user of etcd has a name and a password")),
        };
        Ok(options)
    }

    fn of_postgres(&self, rows: &str) -> Result<postgres::Options, Fault> {
        if self.user.is_some() {
            return Err(refused("the role of PostgreSQL stands in --rows"));
        }
        let mut options = postgres::Options::of(rows);
        options.schema.clone_from(&self.group);
        options.authority = self.authority.clone();
        options.password = self.password_file.clone();
        Ok(options)
    }
}

fn refused(why: &str) -> Fault {
    Fault::Refused(why.to_owned())
}

/// What an engine did at last.
#[derive(Clone, Copy, Debug, PartialEq, Eq, Serialize, Deserialize)]
#[serde(rename_all = "lowercase")]
pub enum Condition {
    /// It answered.
    Answers,
    /// It did not answer.
    Silent,
    /// It had no room.
    Full,
    /// It did not let this process do what it asked, or broke.
    Refuses,
}

/// What a process has heard of its engine.
#[derive(Clone, Debug, Serialize, Deserialize)]
pub struct EngineState {
    /// What it did at last.
    pub condition: Condition,
    /// What it said, where it did not answer.
    pub said: Option<String>,
    /// How many milliseconds ago it answered at last.
    pub answered_ms_ago: u64,
    /// How many milliseconds ago a read began at last that it answered: what was set before that is known here.
    pub read_ms_ago: u64,
}

/// What came of the last call of a kind.
struct Last {
    condition: Condition,
    said: Option<String>,
}

impl Last {
    fn answered() -> Last {
        Last {
            condition: Condition::Answers,
            said: None,
        }
    }
}

struct All {
    set: Last,
    get: Last,
    answered: Instant,
    /// When the last read began that was answered.
    read: Instant,
}

/// The kinds of calls. A full engine may be read all the same.
#[derive(Clone, Copy)]
enum Kind {
    Set,
    Get,
}

/// An engine, of which it is known how it does.
pub struct Heard {
    engine: Arc<dyn Engine>,
    last: Mutex<All>,
    sets: AtomicU64,
}

impl Heard {
    /// An engine that was just opened.
    pub fn of(engine: Arc<dyn Engine>) -> Heard {
        let last = All {
            set: Last::answered(),
            get: Last::answered(),
            answered: Instant::now(),
            read: Instant::now(),
        };
        Heard {
            engine,
            last: Mutex::new(last),
            sets: AtomicU64::new(0),
        }
    }

    /// How long ago a read began at last that it answered: what was set before that is known here.
    pub fn read_ago(&self) -> Duration {
        let all = self.last.lock().unwrap_or_else(PoisonError::into_inner);
        all.read.elapsed()
    }

    /// How many sets it was asked for.
    pub fn sets(&self) -> u64 {
        self.sets.load(Ordering::Relaxed)
    }

    /// How it does.
    pub fn state(&self) -> EngineState {
        let all = self.last.lock().unwrap_or_else(PoisonError::into_inner);
        let last = match all.set.condition {
            Condition::Answers => &all.get,
            _ => &all.set,
        };
        EngineState {
            condition: last.condition,
            said: last.said.clone(),
            answered_ms_ago: milliseconds_since(all.answered),
            read_ms_ago: milliseconds_since(all.read),
        }
    }

    fn has_read(&self, began: Instant) {
        let mut all = self.last.lock().unwrap_or_else(PoisonError::into_inner);
        all.read = all.read.max(began);
    }

    /// Notes what was told.
    fn hear<T>(
        &self,
        kind: Kind,
        told: Result<T, Fault>,
        is_sure: impl Fn(&T) -> bool,
    ) -> Result<T, Fault> {
        let (condition, said) = match &told {
            Ok(told) if is_sure(told) => (Condition::Answers, None),
            Ok(_) => (Condition::Silent, Some("a reply was lost".to_owned())),
            Err(fault) => (condition_of(fault), Some(fault.to_string())),
        };
        let mut all = self.last.lock().unwrap_or_else(PoisonError::into_inner);
        if condition == Condition::Answers {
            all.answered = Instant::now();
        }
        let last = match kind {
            Kind::Set => &mut all.set,
            Kind::Get => &mut all.get,
        };
        if last.condition != condition {
            let said = said.as_deref().unwrap_or("answers");
            tracing::info!("the rows: {said}");
        }
        *last = Last { condition, said };
        told
    }
}

fn milliseconds_since(then: Instant) -> u64 {
    u64::try_from(then.elapsed().as_millis()).unwrap_or(u64::MAX)
}

fn condition_of(fault: &Fault) -> Condition {
    match fault {
        Fault::BadText | Fault::TooMuch(_) | Fault::Trimmed(_) => Condition::Answers,
        Fault::Silent(_) => Condition::Silent,
        Fault::Full => Condition::Full,
        Fault::Refused(_) | Fault::Broken(_) => Condition::Refuses,
    }
}

#[async_trait]
impl Engine for Heard {
    async fn set(&self, row: &RowName, first: u64, texts: &[Bytes]) -> Result<Told, Fault> {
        self.sets.fetch_add(1, Ordering::Relaxed);
        let told = self.engine.set(row, first, texts).await;
        self.hear(Kind::Set, told, |told| *told != Told::Unsure)
    }

    async fn get(&self, row: &RowName, first: u64) -> Result<Vec<Bytes>, Fault> {
        let began = Instant::now();
        let told = self.engine.get(row, first).await;
        if told.is_ok() {
            self.has_read(began);
        }
        self.hear(Kind::Get, told, |_| true)
    }

    async fn trim(&self, row: &RowName, last: u64) -> Result<(), Fault> {
        self.engine.trim(row, last).await
    }

    async fn follow(&self, row: &RowName) -> Result<Box<dyn Tidings>, Fault> {
        self.engine.follow(row).await
    }
}

#[cfg(test)]
mod tests {
    use super::{Condition, Heard, Place};
    use async_trait::async_trait;
    use bytes::Bytes;
    use rows::{Engine, Fault, Files, RowName, Tidings, Told};
    use std::path::Path;
    use std::sync::{Arc, Mutex};

    fn place(rows: &str) -> Place {
        let mut place = Place::folder(Path::new(""));
        place.rows = Some(rows.to_owned());
        place
    }

    #[tokio::test]
    async fn what_names_no_engine_is_refused() {
        let mut with_a_user = place("postgresql://n1@localhost/rows");
        with_a_user.user = Some("n1".to_owned());
        let mut without_a_password = place("http://localhost:1");
        without_a_password.user = Some("n1".to_owned());
        let mut with_an_authority = place("/tmp");
        with_an_authority.authority = Some("ca.pem".into());
        let others = [place("redis://localhost"), place("http://localhost:1,/tmp")];
        for place in others
            .iter()
            .chain([&with_a_user, &without_a_password, &with_an_authority])
        {
            let told = place.open(Path::new("/nowhere")).await.err();
            assert!(
                matches!(told, Some(Fault::Refused(_))),
                "{place:?}: {told:?}"
            );
        }
    }

    /// Answers a set as it is told to.
    struct Answering(Mutex<Result<Told, Fault>>);

    #[async_trait]
    impl Engine for Answering {
        async fn set(&self, _: &RowName, _: u64, _: &[Bytes]) -> Result<Told, Fault> {
            self.0.lock().unwrap().clone()
        }

        async fn get(&self, _: &RowName, _: u64) -> Result<Vec<Bytes>, Fault> {
            Ok(Vec::new())
        }

        async fn trim(&self, _: &RowName, _: u64) -> Result<(), Fault> {
            Ok(())
        }

        async fn follow(&self, row: &RowName) -> Result<Box<dyn Tidings>, Fault> {
            Files::of("/nowhere").follow(row).await
        }
    }

    #[tokio::test]
    async fn how_an_engine_does_has_a_name() {
        let cases = [
            (Ok(Told::Set), Condition::Answers),
            (Ok(Told::Taken), Condition::Answers),
            (Ok(Told::Unsure), Condition::Silent),
            (Err(Fault::Silent("gone".to_owned())), Condition::Silent),
            (Err(Fault::Full), Condition::Full),
            (Err(Fault::Refused("no".to_owned())), Condition::Refuses),
            (Err(Fault::Broken("it".to_owned())), Condition::Refuses),
        ];
        for (told, condition) in cases {
            let engine = Heard::of(Arc::new(Answering(Mutex::new(told.clone()))));
            let row = RowName::founding();
            assert_eq!(engine.set(&row, 1, &[]).await, told);
            assert_eq!(engine.state().condition, condition);
            assert_eq!(
                engine.state().said.is_none(),
                condition == Condition::Answers
            );
            engine.get(&row, 1).await.unwrap();
            assert_eq!(engine.state().condition, condition);
        }
    }
}
