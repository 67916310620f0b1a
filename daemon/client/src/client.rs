//! The client, and what it asks once, or anywhere.
use crate::address::Address;
use crate::asked::{Asked, Evaluation, Rests, Semantic, Subject, SubjectKind};
use crate::error::{Error, Why};
use crate::history::History;
use crate::search::Search;
use crate::submit::{submit, Call};
use crate::told::{decision, decisions, told, Decision, Dump, Place, Record};
use crate::wire::{Fault, Reply, Wire};
use hyper::Method;
use rustls::ClientConfig;
use serde_json::{json, Value};
use std::collections::HashMap;
use std::sync::atomic::{AtomicUsize, Ordering};
use std::sync::{Arc, Mutex, PoisonError};
use std::time::Duration;

/// The most evaluations that are asked at once.
const MOST_EVALUATIONS: usize = 64;

/// So long a process may take. It tells a caller that waits so after its own patience, ten seconds.
const TIMEOUT: Duration = Duration::from_secs(30);

/// So long a call with an id is asked again, and a history that broke off opened again.
const DEADLINE: Duration = Duration::from_secs(60);

type Token = Arc<dyn Fn() -> String + Send + Sync>;

/// Asks the processes of a group, at one or several addresses. Any number of tasks may use it.
///
/// A call without an id is sent once: another process is asked only where nothing was sent. What changes nothing and has no place in the members'
/// order (GET) is asked of the next where one is not ready. A call with an id is asked again at its place until it is answered there.
pub struct Client {
    pub(crate) addresses: Vec<Address>,
    pub(crate) wire: Wire,
    token: Option<Token>,
    allows_open_network: bool,
    timeout: Duration,
    pub(crate) deadline: Duration,
    /// The address that is asked first.
    first: AtomicUsize,
    /// Which place each process was found at.
    places: Mutex<HashMap<usize, Place>>,
}

impl Client {
    /// One that asks the first of these addresses, and the next ones where that one is not there.
    pub fn of(addresses: Vec<Address>) -> Client {
        Client {
            addresses,
            wire: Wire::default(),
            token: None,
            allows_open_network: false,
            timeout: TIMEOUT,
            deadline: DEADLINE,
            first: AtomicUsize::new(0),
            places: Mutex::default(),
        }
    }

    /// Shows a token, which is asked for before each request.
    #[must_use]
    pub fn with_token(self, token: impl Fn() -> String + Send + Sync + 'static) -> Client {
        Client {
            token: Some(Arc::new(token)),
            ..self
        }
    }

    /// Speaks TLS so, at addresses of https.
    #[must_use]
    pub fn with_tls(self, tls: Arc<ClientConfig>) -> Client {
        Client {
            wire: Wire::of(Some(tls)),
            ..self
        }
    }

    /// Asks at addresses of a network without TLS too: whoever is on it may read and change what goes by.
    #[must_use]
    pub fn over_open_network(self) -> Client {
        Client {
            allows_open_network: true,
            ..self
        }
    }

    /// So long a process may take.
    #[must_use]
    pub fn with_timeout(self, timeout: Duration) -> Client {
        Client { timeout, ..self }
    }

    /// So long a call with an id is asked again, and a history that broke off opened again.
    #[must_use]
    pub fn with_deadline(self, deadline: Duration) -> Client {
        Client { deadline, ..self }
    }

    /// Whether a subject may perform an action on a resource.
    ///
    /// # Errors
    /// Where that is not told.
    pub async fn evaluate(
        &self,
        evaluation: &Evaluation,
        rests: &Rests,
    ) -> Result<Decision, Error> {
        let path = "/access/v1/evaluation";
        let asked = rests.asked(Method::POST, path, Some(evaluation.body()))?;
        decision(told(&self.once(&asked).await?, &asked)?, &asked)
    }

    /// The decisions of 1 to 64 evaluations, in their order; with another semantic than all of them up to the one that it ends with.
    ///
    /// # Errors
    /// Where they are not told.
    pub async fn evaluations(
        &self,
        evaluations: &[Evaluation],
        semantic: Semantic,
        rests: &Rests,
    ) -> Result<Vec<Decision>, Error> {
        let each: Vec<Value> = evaluations.iter().map(Evaluation::body).collect();
        let body = json!({
            "evaluations": each,
            "options": { "evaluations_semantic": semantic.word() },
        });
        let asked = rests.asked(Method::POST, "/access/v1/evaluations", Some(body))?;
        // None would be one evaluation, and all of none are granted.
        if !(1..=MOST_EVALUATIONS).contains(&evaluations.len()) {
            let why = format!("1 to {MOST_EVALUATIONS} evaluations are asked at once");
            return Err(asked.fault(Why::NotAsked(why)));
        }
        let read = told(&self.once(&asked).await?, &asked)?;
        decisions(read, evaluations.len(), semantic, &asked)
    }

    /// The actions that a subject may perform on a resource, page after page.
    pub fn search_actions(&self, subject: &Subject, resource: &str, rests: &Rests) -> Search<'_> {
        let mut body = subject.body();
        body["resource"] = json!({ "type": "object", "id": resource });
        Search::of(self, "/access/v1/search/action", body, "name", rests)
    }

    /// The resources on which a subject may perform an action, page after page.
    pub fn search_resources(&self, subject: &Subject, action: &str, rests: &Rests) -> Search<'_> {
        let mut body = subject.body();
        body["action"] = json!({ "name": action });
        body["resource"] = json!({ "type": "object" });
        Search::of(self, "/access/v1/search/resource", body, "id", rests)
    }

    /// The sessions, or the users, that may perform an action on a resource, page after page.
    pub fn search_subjects(
        &self,
        kind: SubjectKind,
        action: &str,
        resource: &str,
        rests: &Rests,
    ) -> Search<'_> {
        let body = json!({
            "subject": { "type": kind.word() },
            "action": { "name": action },
            "resource": { "type": "object", "id": resource },
        });
        Search::of(self, "/access/v1/search/subject", body, "id", rests)
    }

    /// Has 1 to 64 commands carried out, together and once, and gives their records.
    ///
    /// # Errors
    /// Where that is not told. What asks the call again stands in the error.
    pub async fn submit(&self, call: Call) -> Result<Vec<Record>, Error> {
        submit(self, call).await
    }

    /// The commands that make the policy.
    ///
    /// # Errors
    /// Where they are not told.
    pub async fn dump(&self, rests: &Rests) -> Result<Dump, Error> {
        let asked = rests.asked(Method::GET, "/v1/dump", None)?;
        told(&self.anywhere(&asked).await?, &asked)
    }

    /// What the first process that answers tells of itself.
    ///
    /// # Errors
    /// Where none does.
    pub async fn status(&self) -> Result<Value, Error> {
        let asked = Rests::default().asked(Method::GET, "/v1/status", None)?;
        told(&self.anywhere(&asked).await?, &asked)
    }

    /// The records from a number of a generation on, of the one that goes on where none is named; and what comes later.
    pub fn history(&self, from: u64, generation: Option<u64>) -> History<'_> {
        History::of(self, from, generation)
    }

    /// The addresses by their numbers, from that which is asked first on.
    pub(crate) fn order(&self) -> impl Iterator<Item = usize> {
        let (first, count) = (self.first.load(Ordering::Relaxed), self.addresses.len());
        (0..count).map(move |at| (first + at) % count)
    }

    /// The next call begins with this one.
    pub(crate) fn begin_with(&self, at: usize) {
        let at = at.checked_rem(self.addresses.len()).unwrap_or(0);
        self.first.store(at, Ordering::Relaxed);
    }

    pub(crate) fn place(&self, at: usize) -> Option<Place> {
        let places = self.places.lock().unwrap_or_else(PoisonError::into_inner);
        places.get(&at).copied()
    }

    pub(crate) fn found(&self, at: usize, place: Place) {
        let mut places = self.places.lock().unwrap_or_else(PoisonError::into_inner);
        places.insert(at, place);
    }

    /// The request for an address.
    pub(crate) fn request(
        &self,
        at: usize,
        asked: &Asked,
    ) -> Result<hyper::Request<hyper::Body>, Error> {
        let address = &self.addresses[at];
        if !address.is_private() && !self.allows_open_network {
            let why = format!("{address} is a network without TLS");
            return Err(asked.fault(Why::NotAsked(why)));
        }
        asked.request(address, self.token.as_ref().map(|token| token()))
    }

    /// Asks one process once.
    pub(crate) async fn ask_at(
        &self,
        at: usize,
        asked: &Asked,
    ) -> Result<Result<Reply, Fault>, Error> {
        let request = self.request(at, asked)?;
        let told = self.wire.ask(&self.addresses[at], request);
        let told = tokio::time::timeout(self.timeout, told).await;
        // It may have been sent.
        Ok(told.unwrap_or_else(|_| Err(Fault::Lost("it takes too long".to_owned()))))
    }

    /// Asks one process. Another one is asked only where nothing was sent.
    pub(crate) async fn once(&self, asked: &Asked) -> Result<Reply, Error> {
        self.in_turn(asked, |told| !matches!(told, Err(Fault::Unsent(_))))
            .await
    }

    /// Asks each process in turn, until one is ready.
    pub(crate) async fn anywhere(&self, asked: &Asked) -> Result<Reply, Error> {
        self.in_turn(asked, |told| !is_unready(told)).await
    }

    async fn in_turn(
        &self,
        asked: &Asked,
        ends: impl Fn(&Result<Reply, Fault>) -> bool,
    ) -> Result<Reply, Error> {
        let mut told = Err(Fault::Unsent("the client has no address".to_owned()));
        for at in self.order() {
            told = self.ask_at(at, asked).await?;
            if is_unready(&told) {
                self.begin_with(at + 1);
            }
            if ends(&told) {
                break;
            }
        }
        told.map_err(|fault| asked.fault(fault.into()))
    }
}

/// Whether another process is better asked.
pub(crate) fn is_unready(told: &Result<Reply, Fault>) -> bool {
    told.as_ref().map_or(true, |it| {
        [429, 502, 503, 504].contains(&it.status.as_u16())
    })
}
