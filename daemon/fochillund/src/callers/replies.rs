//! What callers are told.
use super::console::{self, File};
use super::State;
use crate::access::Scope;
use crate::node::{Answered, NodeRefusal, ShownAt};
use crate::row_member::Refusal;
use fochillun::MemberError;
use hyper::header::{CACHE_CONTROL, CONTENT_TYPE, RETRY_AFTER, WWW_AUTHENTICATE};
use hyper::http::response::Builder;
use hyper::{Body, Response, StatusCode};
use serde::Serialize;
use serde_json::{json, Value};
use std::time::Duration;

/// What a caller is told.
#[derive(Debug)]
pub(super) enum Told {
    Answered(Answered),
    Records {
        generation: u64,
        records: Vec<String>,
    },
    State(Box<State>),
    Dump {
        at: ShownAt,
        commands: Vec<String>,
    },
    /// The text of a JSON value.
    Json(Vec<u8>),
    /// To who reads the status alone.
    Granted,
    /// The same: the text of the decision.
    NotGranted(Vec<u8>),
    /// Server-sent events.
    Stream(Body),
    /// For Prometheus.
    Metrics(Vec<u8>),
    /// A file of the console.
    File(&'static File),
    /// The console's files are in a folder.
    InFolder,
    Healthy,
    Ready,
    NotReady(&'static str),
    /// What was delivered here does not go as far as was asked for.
    Behind(Box<State>),
    /// The rows were not read lately.
    Stale(Box<State>),
    Refused(NodeRefusal),
    BadRequest(String),
    TooLong(usize),
    /// So many evaluations are asked at once at most.
    TooMany(usize),
    /// The history of this generation is not kept here.
    NotKept(u64),
    /// The call stands, and waits.
    Waits(Box<State>),
    /// The process ends.
    Ends,
    /// A line of the decision log that is required can't be written.
    NotLogged,
    /// The process keeps no decision log.
    NoLog,
    /// The request names a host that this machine is not.
    OtherHost,
    /// It comes of another host's page.
    OtherOrigin,
    /// Nobody knows who asks.
    Unknown,
    /// The caller may not ask this.
    OutOfScope(Scope),
    /// The caller has asked as much as it may, for so long.
    TooMuch(Duration),
    NoMethod,
    NoPath,
}

impl Told {
    pub(super) fn json(told: &impl Serialize) -> Told {
        Told::Json(text_of(told))
    }

    /// To who reads the status alone, where it is not granted.
    pub(super) fn not_granted(told: &impl Serialize) -> Told {
        Told::NotGranted(text_of(told))
    }

    pub(super) fn response(self) -> Response<Body> {
        let status = self.status();
        let response = self.head(Response::builder().status(status));
        let body = match self {
            // The records are the library's own texts.
            Told::Answered(Answered {
                generation,
                member,
                records,
            }) => {
                let records = records.join(",");
                format!(
                    "{{\"generation\":{generation},\"member\":{member},\"records\":[{records}]}}\n"
                )
                .into()
            }
            Told::Records {
                generation,
                records,
            } => {
                let records = records.join(",");
                format!("{{\"generation\":{generation},\"records\":[{records}]}}\n").into()
            }
            Told::Dump { at, commands } => {
                let (generation, commands) = (at.generation, commands.join(","));
                format!(
                    "{{\"generation\":{generation},\"at\":\"{at}\",\"commands\":[{commands}]}}\n"
                )
                .into()
            }
            Told::File(file) => return file.response(),
            Told::InFolder => return console::to_folder(),
            Told::Json(text) | Told::NotGranted(text) | Told::Metrics(text) => text.into(),
            Told::Granted => Body::empty(),
            Told::Stream(body) => body,
            other => (other.told().to_string() + "\n").into(),
        };
        response.body(body).expect("the headers are right")
    }

    fn head(&self, response: Builder) -> Builder {
        let kind = match self {
            Told::Granted => return response.header(CACHE_CONTROL, "no-store"),
            Told::Stream(_) => "text/event-stream",
            Told::Metrics(_) => "text/plain; version=0.0.4",
            _ => "application/json",
        };
        let response = response.header(CONTENT_TYPE, kind);
        match self {
            Told::Stream(_) | Told::NotGranted(_) => response.header(CACHE_CONTROL, "no-store"),
            Told::Unknown => response.header(WWW_AUTHENTICATE, "Bearer"),
            Told::TooMuch(wait) => {
                let seconds = wait.as_secs() + u64::from(wait.subsec_nanos() > 0);
                response.header(RETRY_AFTER, seconds.max(1))
            }
            Told::Refused(NodeRefusal::Call(Refusal::Busy)) => response.header(RETRY_AFTER, "1"),
            _ => response,
        }
    }

    fn status(&self) -> StatusCode {
        match self {
            Told::Answered(_)
            | Told::Records { .. }
            | Told::State(_)
            | Told::Dump { .. }
            | Told::Json(_)
            | Told::Stream(_)
            | Told::Metrics(_)
            | Told::File(_)
            | Told::InFolder
            | Told::Healthy
            | Told::Ready => StatusCode::OK,
            Told::Granted => StatusCode::NO_CONTENT,
            Told::NotGranted(_) => StatusCode::FORBIDDEN,
            Told::Behind(_) => StatusCode::CONFLICT,
            Told::Refused(refusal) => status_of(*refusal),
            Told::Waits(_) | Told::Ends | Told::Stale(_) | Told::NotReady(_) | Told::NotLogged => {
                StatusCode::SERVICE_UNAVAILABLE
            }
            Told::BadRequest(_) => StatusCode::BAD_REQUEST,
            Told::TooLong(_) | Told::TooMany(_) => StatusCode::PAYLOAD_TOO_LARGE,
            Told::NotKept(_) => StatusCode::GONE,
            Told::Unknown => StatusCode::UNAUTHORIZED,
            Told::OutOfScope(_) | Told::OtherHost | Told::OtherOrigin => StatusCode::FORBIDDEN,
            Told::TooMuch(_) => StatusCode::TOO_MANY_REQUESTS,
            Told::NoMethod => StatusCode::METHOD_NOT_ALLOWED,
            Told::NoPath | Told::NoLog => StatusCode::NOT_FOUND,
        }
    }

    /// The word of what is refused, what it means, and what a caller can go on with. `stands` says whether the call may be carried out.
    fn told(&self) -> Value {
        let refused = |error: &str, text: &str| json!({ "error": error, "text": text });
        match self {
            Told::State(state) => serde_json::to_value(state).expect("a state is JSON"),
            Told::Healthy => json!({ "healthy": true }),
            Told::Ready => json!({ "ready": true }),
            Told::NotReady(why) => json!({ "ready": false, "text": why }),
            Told::Behind(state) => json!({
                "error": "Behind",
                "text": "what is delivered here does not go as far",
                "shown": state.shown,
            }),
            Told::Stale(state) => json!({
                "error": "Stale",
                "text": "the rows were not read lately",
                "engine": state.engine,
            }),
            Told::Refused(refusal) => told_of(*refusal),
            Told::BadRequest(why) => refused("BadRequest", why),
            Told::TooLong(most) => refused("TooLong", &format!("a body has at most {most} bytes")),
            Told::TooMany(most) => refused("TooMany", &format!("at most {most} are asked at once")),
            Told::NotKept(generation) => {
                let why = format!("the history of generation {generation} is not kept here");
                refused("NotKept", &why)
            }
            Told::Waits(state) => json!({
                "error": "Waits",
                "text": "the call stands: ask again by its id",
                "stands": true,
                "phase": state.phase,
                "waits_for": state.waits_for,
                "sets": state.sets,
                "engine": state.engine,
            }),
            Told::Ends => refused(
                "Ends",
                "the process ends; the call may stand: ask again by its id",
            ),
            Told::NotLogged => refused(
                "NotLogged",
                "the decision log takes no line; a call stands: ask again by its id",
            ),
            Told::NoLog => refused("NoLog", "this process keeps no decision log"),
            Told::OtherHost => refused(
                "OtherHost",
                "this address answers to names of its machine, and to the public URL's",
            ),
            Told::OtherOrigin => refused("OtherOrigin", "another host's page asks this"),
            Told::Unknown => refused("Unknown", "a token or a certificate says who asks"),
            Told::OutOfScope(scope) => json!({
                "error": "OutOfScope",
                "text": "this caller may not ask it",
                "scope": scope,
            }),
            Told::TooMuch(_) => refused("TooMuch", "this caller has asked as much as it may"),
            Told::NoMethod => refused("NoMethod", "another method is asked for here"),
            Told::NoPath => refused("NoPath", "docs/API.md has the paths"),
            Told::Answered(_)
            | Told::Records { .. }
            | Told::Dump { .. }
            | Told::Json(_)
            | Told::Granted
            | Told::NotGranted(_)
            | Told::Stream(_)
            | Told::File(_)
            | Told::InFolder
            | Told::Metrics(_) => unreachable!("it has a body of its own"),
        }
    }
}

fn status_of(refusal: NodeRefusal) -> StatusCode {
    match refusal {
        NodeRefusal::Call(Refusal::Commands(MemberError::NoMemory) | Refusal::Full) => {
            StatusCode::SERVICE_UNAVAILABLE
        }
        NodeRefusal::Call(Refusal::Commands(_)) => StatusCode::BAD_REQUEST,
        NodeRefusal::Call(Refusal::OtherCommands) => StatusCode::UNPROCESSABLE_ENTITY,
        NodeRefusal::Call(Refusal::Busy) => StatusCode::TOO_MANY_REQUESTS,
        NodeRefusal::Call(Refusal::NotTaken)
        | NodeRefusal::NotTaken { .. }
        | NodeRefusal::NoGeneration { .. } => StatusCode::CONFLICT,
        NodeRefusal::OldGeneration { .. } => StatusCode::GONE,
        NodeRefusal::NotPermitted => StatusCode::FORBIDDEN,
        NodeRefusal::OtherMember { .. } => StatusCode::MISDIRECTED_REQUEST,
    }
}

fn told_of(refusal: NodeRefusal) -> Value {
    let text = refusal.to_string();
    match refusal {
        NodeRefusal::Call(Refusal::Commands(why)) => {
            json!({ "error": format!("{why:?}"), "text": text })
        }
        NodeRefusal::Call(why) => json!({ "error": format!("{why:?}"), "text": text }),
        NodeRefusal::NotTaken { now } => {
            json!({ "error": "NotTaken", "text": text, "generation": now })
        }
        NodeRefusal::OldGeneration { now } => {
            json!({ "error": "OldGeneration", "text": text, "generation": now })
        }
        NodeRefusal::NoGeneration { now } => {
            json!({ "error": "NoGeneration", "text": text, "generation": now })
        }
        NodeRefusal::NotPermitted => json!({ "error": "NotPermitted", "text": text }),
        NodeRefusal::OtherMember { member } => {
            json!({ "error": "OtherMember", "text": text, "member": member })
        }
    }
}

fn text_of(told: &impl Serialize) -> Vec<u8> {
    let mut text = serde_json::to_vec(told).expect("it is JSON");
    text.push(b'\n');
    text
}
