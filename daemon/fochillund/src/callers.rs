//! Callers: HTTP/1.1 and JSON over a unix socket, and over a network address where one is asked for. docs/API.md has each route.
mod asking;
mod authzen;
mod commands;
mod console;
mod decisions;
mod doors;
mod health;
mod history;
mod origins;
mod replies;
mod requests;
mod routes;
mod serving;
mod state;
mod trying;

pub use serving::{seconds, Serving};
pub use state::State;

use crate::access::{Access, Caller, Tls};
use crate::decision_log::{DecisionLog, Line};
use crate::engine::Heard;
use crate::metrics::Metrics;
use crate::policy_questions::Names;
use crate::process::{Options, Progress, Question};
use crate::stop::Stop;
use doors::Door;
use hyper::header::{HeaderName, HeaderValue};
use hyper::{Body, HeaderMap, Request, Response};
use replies::Told;
use routes::Route;
use std::sync::Arc;
use std::time::{Duration, Instant};
use tokio::signal::unix::{signal, SignalKind};
use tokio::sync::{mpsc, oneshot, watch, Semaphore};

/// How many streams of the history are open at once.
const MOST_STREAMS: usize = 256;

/// By which header a caller names its request.
const REQUEST_ID: HeaderName = HeaderName::from_static("x-request-id");

/// The most bytes of that name.
const LONGEST_REQUEST_ID: usize = 128;

/// What callers' questions are answered by.
pub(crate) struct Asking {
    pub(crate) questions: mpsc::Sender<Question>,
    pub(crate) progress: watch::Receiver<Progress>,
    pub(crate) engine: Arc<Heard>,
    pub(crate) metrics: Arc<Metrics>,
}

/// What the connections of a process share.
struct Callers {
    patience: Duration,
    freshness: Duration,
    /// Whether the process has a node, and so a place in the order of commands.
    is_member: bool,
    public_url: Option<String>,
    asking: Asking,
    names: Names,
    log: Option<DecisionLog>,
    access: Option<Arc<Access>>,
    streams: Arc<Semaphore>,
    /// Whose turn it is to try commands.
    tries: Semaphore,
}

/// One who asks, and how it calls its request.
#[derive(Clone, Debug)]
struct Asker {
    caller: Arc<Caller>,
    request_id: Option<HeaderValue>,
}

impl Asker {
    fn line(&self, route: &str, generation: u64) -> Line {
        let request_id = self.request_id.as_ref();
        let request_id = request_id.and_then(|id| id.to_str().ok());
        Line {
            request_id: request_id.map(str::to_owned),
            ..Line::of(&self.caller.identity, route, generation)
        }
    }
}

/// Takes calls at the process's socket, and at its network address, from now on.
pub(crate) async fn serve(options: &Options, asking: Asking) -> Result<(), Stop> {
    let serving = &options.serving;
    let network = doors::network(serving).await?;
    let log = DecisionLog::of(&serving.log, Arc::clone(&asking.metrics));
    let log = log.map_err(|error| Stop::Serving(format!("the decision log: {error}")))?;
    let (access, tls) = match &network {
        Some(network) => (network.access.clone(), network.tls.clone()),
        None => (None, None),
    };
    let callers = Arc::new(Callers {
        patience: serving.patience,
        freshness: serving.freshness,
        is_member: options.node.is_some(),
        public_url: serving.public_url.clone(),
        asking,
        names: Names::new(),
        log,
        access,
        streams: Arc::new(Semaphore::new(MOST_STREAMS)),
        tries: Semaphore::new(1),
    });
    doors::open_socket(&options.socket, serving.socket_mode, Arc::clone(&callers))
        .map_err(Stop::Socket)?;
    if let Some(network) = network {
        doors::open_network(network, Arc::clone(&callers));
    }
    let mut hangups = signal(SignalKind::hangup()).map_err(Stop::Socket)?;
    tokio::spawn(async move {
        while hangups.recv().await.is_some() {
            callers.reread(tls.as_deref());
        }
    });
    Ok(())
}

impl Callers {
    /// Reads again who may call, and the certificates, and opens the decision log again.
    fn reread(&self, tls: Option<&Tls>) {
        if let Some(access) = &self.access {
            match access.reread() {
                Ok(()) => tracing::info!("the callers' file is read again"),
                Err(fault) => tracing::error!("the callers stay as they were: {fault}"),
            }
        }
        if let Some(tls) = tls {
            match tls.reread() {
                Ok(()) => tracing::info!("the certificate is read again"),
                Err(fault) => tracing::error!("the certificate stays as it was: {fault}"),
            }
        }
        if let Some(log) = &self.log {
            log.reopen();
        }
    }

    async fn answer(self: &Arc<Callers>, door: &Door, request: Request<Body>) -> Response<Body> {
        let began = Instant::now();
        let request_id = request_id(request.headers());
        let route = Route::of(request.method(), request.uri().path());
        let label = route.as_ref().map_or("none", |route| route.label());
        let told = match route {
            Ok(route) => self.told(route, door, request, request_id.clone()).await,
            Err(refused) => Err(refused),
        };
        let mut response = told.unwrap_or_else(|refused| refused).response();
        if let Some(request_id) = request_id {
            response.headers_mut().insert(REQUEST_ID, request_id);
        }
        let status = response.status().as_u16();
        self.asking.metrics.answered(label, status, began.elapsed());
        response
    }

    async fn told(
        self: &Arc<Callers>,
        route: Route,
        door: &Door,
        request: Request<Body>,
        request_id: Option<HeaderValue>,
    ) -> Result<Told, Told> {
        let public_url = self.public_url.as_deref();
        let (method, headers) = (request.method(), request.headers());
        origins::check(door.is_loopback(), public_url, method, headers)?;
        match route {
            Route::Console => return console::answer(request.uri().path()),
            Route::Healthz => return Ok(Told::Healthy),
            Route::Readyz => return self.answer_ready().await,
            Route::Configuration => return Ok(self.answer_configuration(door, &request)),
            _ => {}
        }
        let caller = door.caller(request.headers())?;
        caller.admit(Instant::now()).map_err(Told::TooMuch)?;
        if let Some(scope) = route.scope().filter(|scope| !caller.may(*scope)) {
            return Err(Told::OutOfScope(scope));
        }
        let asker = Asker { caller, request_id };
        self.told_to(&asker, route, request).await
    }

    /// What a caller is told who may ask a route.
    async fn told_to(
        self: &Arc<Callers>,
        asker: &Asker,
        route: Route,
        request: Request<Body>,
    ) -> Result<Told, Told> {
        match route {
            Route::Evaluation => self.answer_evaluation(asker, request).await,
            Route::Evaluations => self.answer_evaluations(asker, request).await,
            Route::Check => self.answer_check(asker, &request).await,
            Route::SearchAction => self.answer_search_action(asker, request).await,
            Route::SearchResource => self.answer_search_resource(asker, request).await,
            Route::SearchSubject => self.answer_search_subject(asker, request).await,
            Route::Commands => self.answer_call(asker, request).await,
            Route::Try => self.answer_try(asker, request).await,
            Route::Dump => self.answer_dump(&request).await,
            Route::Founding => self.answer_founding().await,
            Route::Records => self.answer_records(&request).await,
            Route::History => self.answer_history(asker, &request).await,
            Route::Decisions => self.answer_decisions(asker),
            Route::Messages => self.answer_messages().await,
            Route::Status => self.state().await.map(Told::State),
            Route::Metrics => self.answer_metrics().await,
            Route::Console | Route::Healthz | Route::Readyz | Route::Configuration => {
                unreachable!("told above")
            }
        }
    }

    async fn state(&self) -> Result<Box<State>, Told> {
        self.ask(Question::State).await
    }

    async fn ask<T>(
        &self,
        question: impl FnOnce(oneshot::Sender<T>) -> Question,
    ) -> Result<T, Told> {
        let (tell, told) = oneshot::channel();
        self.put(question(tell)).await?;
        told.await.map_err(|_| Told::Ends)
    }

    async fn put(&self, question: Question) -> Result<(), Told> {
        let put = self.asking.questions.send(question).await;
        put.map_err(|_| Told::Ends)
    }

    /// Writes lines of the decision log, before anybody is told what they say.
    async fn log(&self, lines: impl FnOnce() -> Vec<Line>) -> Result<(), Told> {
        match &self.log {
            Some(log) => log.write(&lines()).await.map_err(|_| Told::NotLogged),
            None => Ok(()),
        }
    }
}

/// How a caller calls its request: visible ASCII, and not too long; else it is as if it had no name.
fn request_id(headers: &HeaderMap) -> Option<HeaderValue> {
    let id = headers.get(REQUEST_ID)?;
    let is_told = id.len() <= LONGEST_REQUEST_ID && id.as_bytes().iter().all(u8::is_ascii_graphic);
    is_told.then(|| id.clone())
}
