//! Who may call, and what: callers by their bearer tokens or certificates, each with its scopes, its limits, and perhaps a session.
//!
//! On the unix socket a caller is who the machine says it is, and may ask anything: the socket's rights are its owner's.
mod callers_file;
mod limits;
mod scopes;
mod tls;
mod tokens;

pub use callers_file::{CallersFault, CallersFile, Entry};
pub use limits::Limits;
pub use scopes::{scope_of, Scope};
pub use tls::{Tls, TlsFault, TlsFiles};
pub use tokens::{new_token, TokenHash};

use limits::Buckets;
use std::path::PathBuf;
use std::sync::{Arc, Mutex, PoisonError};
use std::time::{Duration, Instant};
use tokio::sync::watch;

/// The session by which a caller administers, and whose it is.
#[derive(Clone, Debug, PartialEq, Eq)]
pub struct Bound {
    /// The user.
    pub user: String,
    /// The session.
    pub session: String,
}

/// One who calls.
#[derive(Debug)]
pub struct Caller {
    /// By what its calls' ids are told from those of others.
    pub identity: String,
    /// Whose permissions its administrative commands need.
    pub bound: Option<Bound>,
    is_unlisted: bool,
    scopes: Vec<Scope>,
    buckets: Mutex<Buckets>,
}

impl Caller {
    /// One of the machine's own users, who may ask anything.
    pub fn of_machine(user: u32) -> Caller {
        Caller::of_all(format!("uid {user}"))
    }

    /// Anybody of a network of which the operator has said that who reaches it may ask anything.
    pub fn of_open_network() -> Caller {
        Caller::of_all("network".to_owned())
    }

    fn of_all(identity: String) -> Caller {
        Caller {
            identity,
            bound: None,
            is_unlisted: true,
            scopes: Scope::ALL.to_vec(),
            buckets: Mutex::new(Buckets::of(Limits::default())),
        }
    }

    fn of_entry(entry: &Entry) -> Caller {
        Caller {
            identity: entry.name.clone(),
            bound: entry.bound(),
            is_unlisted: false,
            scopes: entry.scopes.clone(),
            buckets: Mutex::new(Buckets::of(entry.limits)),
        }
    }

    /// Whether no file knows it: one of the machine's users, or anybody of an open network.
    pub fn is_unlisted(&self) -> bool {
        self.is_unlisted
    }

    /// Whether it may ask what is of a scope.
    pub fn may(&self, scope: Scope) -> bool {
        self.scopes.contains(&scope)
    }

    /// Takes one call, where the caller's limits let it.
    ///
    /// # Errors
    /// Otherwise, after how long they may.
    pub fn admit(&self, now: Instant) -> Result<(), Duration> {
        let mut buckets = self.buckets.lock().unwrap_or_else(PoisonError::into_inner);
        buckets.admit(now)
    }

    /// What a call that was taken has brought: so many lines, which are commands or evaluations, and bytes.
    pub fn spend(&self, lines: usize, bytes: usize) {
        let mut buckets = self.buckets.lock().unwrap_or_else(PoisonError::into_inner);
        buckets.spend(lines, bytes);
    }
}

/// A caller by how it is known.
#[derive(Clone, Debug)]
struct Known {
    entry: Entry,
    caller: Arc<Caller>,
}

/// The callers of a file, which is read again when it is asked for.
#[derive(Debug)]
pub struct Access {
    file: PathBuf,
    known: watch::Sender<Arc<Vec<Known>>>,
}

impl Access {
    /// Of a callers' file.
    ///
    /// # Errors
    /// Where it can't be read, may be read by others, or is none.
    pub fn of(file: PathBuf) -> Result<Access, CallersFault> {
        let entries = CallersFile::read(&file)?.callers;
        let known = entries.into_iter().map(known_anew).collect();
        let (known, _) = watch::channel(Arc::new(known));
        Ok(Access { file, known })
    }

    /// Reads the file again. Who stands there as before stays the same caller; streams of the others end.
    ///
    /// # Errors
    /// As [`Access::of`]. Then the callers stay those of before.
    pub fn reread(&self) -> Result<(), CallersFault> {
        let entries = CallersFile::read(&self.file)?.callers;
        let before = Arc::clone(&self.known.borrow());
        let known = entries.into_iter().map(|entry| {
            let same = before.iter().find(|known| known.entry == entry);
            same.cloned().unwrap_or_else(|| known_anew(entry))
        });
        self.known.send_replace(Arc::new(known.collect()));
        Ok(())
    }

    /// Whose token this is.
    pub fn by_token(&self, token: &str) -> Option<Arc<Caller>> {
        let asked = TokenHash::of(token);
        let known = self.known.borrow();
        // Each is compared, whichever it is.
        let mut found = None;
        for known in known.iter() {
            if known.entry.token.is_some_and(|there| there.is(&asked)) {
                found = Some(Arc::clone(&known.caller));
            }
        }
        found
    }

    /// Whose certificate this is, which an authority of the operator's has signed.
    pub fn by_certificate(&self, certificate: &[u8]) -> Option<Arc<Caller>> {
        let certificate = webpki::EndEntityCert::try_from(certificate).ok()?;
        let is_of = |name: &str| {
            let name = webpki::DnsNameRef::try_from_ascii_str(name);
            name.is_ok_and(|name| certificate.verify_is_valid_for_dns_name(name).is_ok())
        };
        let known = self.known.borrow();
        let mut of_certificate =
            { known.iter() }.filter(|it| it.entry.certificate.as_deref().is_some_and(is_of));
        of_certificate.next().map(|it| Arc::clone(&it.caller))
    }

    /// Returns once a caller is none of the file's any more.
    pub async fn is_removed(&self, caller: &Arc<Caller>) {
        let mut known = self.known.subscribe();
        let is_there = |known: &[Known]| known.iter().any(|it| Arc::ptr_eq(&it.caller, caller));
        while is_there(&known.borrow_and_update()) {
            if known.changed().await.is_err() {
                return;
            }
        }
    }
}

fn known_anew(entry: Entry) -> Known {
    let caller = Arc::new(Caller::of_entry(&entry));
    Known { entry, caller }
}
