//! What can be asked, and where.
use super::console;
use super::replies::Told;
use crate::access::Scope;
use hyper::Method;

/// What is asked.
#[derive(Clone, Copy, Debug, PartialEq, Eq)]
pub(super) enum Route {
    Evaluation,
    Evaluations,
    SearchAction,
    SearchResource,
    SearchSubject,
    Configuration,
    Check,
    Commands,
    Try,
    Dump,
    Founding,
    Records,
    History,
    Decisions,
    Messages,
    Status,
    Healthz,
    Readyz,
    Metrics,
    Console,
}

/// Each route with its method and path. The first of a route's paths is what it is called.
const ROUTES: [(Route, Method, &str); 21] = [
    (Route::Evaluation, Method::POST, "/access/v1/evaluation"),
    (Route::Evaluations, Method::POST, "/access/v1/evaluations"),
    (
        Route::SearchAction,
        Method::POST,
        "/access/v1/search/action",
    ),
    (
        Route::SearchResource,
        Method::POST,
        "/access/v1/search/resource",
    ),
    (
        Route::SearchSubject,
        Method::POST,
        "/access/v1/search/subject",
    ),
    (
        Route::Configuration,
        Method::GET,
        "/.well-known/authzen-configuration",
    ),
    (Route::Check, Method::GET, "/v1/check"),
    (Route::Commands, Method::POST, "/v1/commands"),
    (Route::Try, Method::POST, "/v1/commands/try"),
    (Route::Dump, Method::GET, "/v1/dump"),
    (Route::Founding, Method::GET, "/v1/founding"),
    (Route::Records, Method::GET, "/v1/records"),
    (Route::History, Method::GET, "/v1/history"),
    (Route::Decisions, Method::GET, "/v1/decisions"),
    (Route::Messages, Method::GET, "/v1/messages"),
    (Route::Status, Method::GET, "/v1/status"),
    // As it was called before.
    (Route::Status, Method::GET, "/v1/state"),
    (Route::Healthz, Method::GET, "/healthz"),
    (Route::Readyz, Method::GET, "/readyz"),
    (Route::Metrics, Method::GET, "/metrics"),
    // And what is below it.
    (Route::Console, Method::GET, "/console/"),
];

impl Route {
    pub(super) fn of(method: &Method, path: &str) -> Result<Route, Told> {
        let path = if console::is_path(path) {
            "/console/"
        } else {
            path
        };
        let mut of_path = ROUTES.iter().filter(|(.., named)| *named == path);
        let (route, its, _) = of_path.next().ok_or(Told::NoPath)?;
        match its == method {
            true => Ok(*route),
            false => Err(Told::NoMethod),
        }
    }

    /// What it is called where requests are counted.
    pub(super) fn label(self) -> &'static str {
        let (.., path) = { ROUTES.iter() }
            .find(|(route, ..)| *route == self)
            .expect("each route has a path");
        path
    }

    /// The scope that a caller needs. None of a route that anybody may ask, and of commands, of which each has its own.
    pub(super) fn scope(self) -> Option<Scope> {
        match self {
            Route::Evaluation | Route::Evaluations | Route::Check => Some(Scope::Check),
            Route::SearchAction | Route::SearchResource | Route::SearchSubject => {
                Some(Scope::Review)
            }
            Route::Dump | Route::Founding => Some(Scope::Review),
            Route::Records | Route::History => Some(Scope::Review),
            Route::Decisions | Route::Messages => Some(Scope::Operate),
            Route::Status | Route::Metrics => Some(Scope::Operate),
            Route::Commands | Route::Try => None,
            Route::Configuration | Route::Healthz | Route::Readyz | Route::Console => None,
        }
    }
}
