//! Where the server is, and how it is reached.
use super::faults::fault_of_connect;
use super::hosts::{hosts_of, is_local};
use super::session::Session;
use super::settings::Settings;
use super::table::Table;
use super::tidings::Followed;
use super::tls::MakeTls;
use super::Options;
use crate::engine::Fault;
use std::fs;
use std::future::{poll_fn, Future};
use std::path::PathBuf;
use std::sync::atomic::{AtomicU64, Ordering};
use std::sync::Arc;
use std::time::Duration;
use tokio::io::{AsyncRead, AsyncWrite};
use tokio::sync::watch;
use tokio::task::JoinHandle;
use tokio_postgres::config::SslMode;
use tokio_postgres::error::Severity;
use tokio_postgres::{AsyncMessage, Client, Config, Connection};

/// Where to, and how.
pub(super) struct Target {
    /// One for each host.
    configs: Vec<Config>,
    password: Option<PathBuf>,
    pub(super) tls: MakeTls,
    connect_timeout: Duration,
    pub(super) answer_timeout: Duration,
    pub(super) table: Table,
    /// Whom its connections wake.
    pub(super) followed: Arc<Followed>,
}

impl Target {
    pub(super) fn of(options: &Options) -> Result<Target, Fault> {
        let mut configs = hosts_of(&options.server)?;
        let authority = options.authority.as_deref();
        let tls = authority.map(crate::tls::client_config).transpose()?;
        for config in &mut configs {
            let is_local = config.get_hosts().iter().all(is_local);
            if tls.is_none() && !is_local {
                let why = "a host that is not this machine is asked over TLS: name its authority";
                return Err(Fault::Refused(why.to_owned()));
            }
            config.ssl_mode(match tls {
                Some(_) => SslMode::Require,
                None => SslMode::Disable,
            });
        }
        Ok(Target {
            configs,
            password: options.password.clone(),
            tls: MakeTls(tls.map(Arc::new)),
            connect_timeout: options.connect_timeout,
            answer_timeout: options.answer_timeout,
            table: Table::of(&options.schema)?,
            followed: Arc::default(),
        })
    }

    /// Has the table made where it is not there, and says what there is to say of the server.
    pub(super) async fn found(&self) -> Result<(), Fault> {
        self.first_host(|link| self.found_over(link)).await
    }

    async fn found_over(&self, link: Link) -> Result<(), Fault> {
        if link.settings.is_alone() {
            tracing::info!("PostgreSQL: synchronous_standby_names is empty: one machine's disk is all that keeps the rows");
        }
        self.table.make(&link.client).await
    }

    /// A connection to a server that may be relied on.
    pub(super) async fn connect(&self) -> Result<Session, Fault> {
        self.first_host(|link| self.begin_over(link)).await
    }

    async fn begin_over(&self, link: Link) -> Result<Session, Fault> {
        self.table.check(&link.client).await?;
        Session::of(self, link).await
    }

    /// Does this with the first host where it can be done in time. Where none is, it tells of one that an operator has to mend, or else of the last.
    async fn first_host<T, F>(&self, work: impl Fn(Link) -> F) -> Result<T, Fault>
    where
        F: Future<Output = Result<T, Fault>>,
    {
        let mut told = Fault::Silent("no host".to_owned());
        for config in &self.configs {
            let work = async { work(self.link(config).await?).await };
            let late = |_| Err(Fault::Silent("no connection in time".to_owned()));
            match tokio::time::timeout(self.connect_timeout, work)
                .await
                .unwrap_or_else(late)
            {
                Ok(done) => return Ok(done),
                Err(fault) if !matches!(told, Fault::Refused(_)) => told = fault,
                Err(_) => {}
            }
        }
        Err(told)
    }

    async fn link(&self, config: &Config) -> Result<Link, Fault> {
        let config = self.with_password(config)?;
        let made = config.connect(self.tls.clone()).await;
        let (client, connection) = made.map_err(|error| fault_of_connect(&error))?;
        let warnings = Arc::new(AtomicU64::new(0));
        let (ends, ended) = watch::channel(());
        let heard = Heard {
            warnings: Arc::clone(&warnings),
            followed: Arc::clone(&self.followed),
            open_channel: self.table.schema().to_owned(),
        };
        let driver = Task(tokio::spawn(async move {
            drive(connection, heard).await;
            drop(ends);
        }));
        let settings = Settings::ask(&client).await?;
        settings.check()?;
        settings.fix(&client, self.answer_timeout).await?;
        Ok(Link {
            client,
            settings,
            warnings,
            ended,
            driver,
        })
    }

    /// With what the file has now.
    fn with_password(&self, config: &Config) -> Result<Config, Fault> {
        let mut config = config.clone();
        if let Some(file) = &self.password {
            let password = fs::read_to_string(file)
                .map_err(|error| Fault::Refused(format!("{}: {error}", file.display())))?;
            config.password(password.trim_end_matches(['\r', '\n']));
        }
        Ok(config)
    }
}

/// A connection whose server was asked for its settings.
pub(super) struct Link {
    pub(super) client: Client,
    settings: Settings,
    pub(super) warnings: Arc<AtomicU64>,
    pub(super) ended: Ended,
    /// What reads and writes the socket; without it the connection is closed.
    pub(super) driver: Task,
}

/// Has an error once the connection has ended, and nothing before.
pub(super) type Ended = watch::Receiver<()>;

/// What goes on until it is dropped.
pub(super) struct Task(pub(super) JoinHandle<()>);

impl Drop for Task {
    fn drop(&mut self) {
        self.0.abort();
    }
}

/// What is heard over a connection beside the answers.
struct Heard {
    warnings: Arc<AtomicU64>,
    followed: Arc<Followed>,
    /// On which channel anybody may tell. The connection listens there, or on one of its own, on which the server alone tells.
    open_channel: String,
}

impl Heard {
    fn hear(&self, message: AsyncMessage) {
        match message {
            AsyncMessage::Notice(notice) if notice.parsed_severity() == Some(Severity::Warning) => {
                tracing::warn!("PostgreSQL: {}", notice.message());
                self.warnings.fetch_add(1, Ordering::SeqCst);
            }
            AsyncMessage::Notification(told) => {
                let is_sure = told.channel() != self.open_channel;
                self.followed.tell(told.payload(), is_sure);
            }
            _ => {}
        }
    }
}

/// Moves what is asked and answered, counts warnings and wakes who follows a row of which there are tidings. What the server told before an answer
/// was counted before the answer is had.
async fn drive<S, T>(mut connection: Connection<S, T>, heard: Heard)
where
    S: AsyncRead + AsyncWrite + Unpin,
    T: AsyncRead + AsyncWrite + Unpin,
{
    loop {
        match poll_fn(|context| connection.poll_message(context)).await {
            Some(Ok(message)) => heard.hear(message),
            Some(Err(error)) => {
                tracing::debug!("PostgreSQL: a connection ends: {error}");
                return;
            }
            None => return,
        }
    }
}
