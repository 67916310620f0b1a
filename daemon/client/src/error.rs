//! Why a call has no answer.
use crate::told::Place;
use crate::wire::{Fault, Reply};
use hyper::header::RETRY_AFTER;
use serde_json::Value;
use std::fmt;
use std::time::Duration;
use thiserror::Error;

/// A call has no answer.
#[derive(Clone, Debug)]
pub struct Error {
    /// Why.
    pub why: Why,
    /// How it was called in logs.
    pub request_id: String,
    /// The id of a call.
    pub key: Option<String>,
    /// Where a call may stand: asked again there by its id, it is carried out once. None where it stands nowhere.
    pub place: Option<Place>,
}

/// Why a call has no answer.
#[derive(Clone, Debug, Error)]
pub enum Why {
    /// What was asked can't be sent, and was not.
    #[error("{0}")]
    NotAsked(String),
    /// No process was reached. Nothing was sent.
    #[error("no process is reached: {0}")]
    Unreachable(String),
    /// It was sent, and no whole reply came. What it asked may be carried out.
    #[error("the reply is lost: {0}")]
    ReplyLost(String),
    /// The reply is none that a process gives.
    #[error("the reply is none: {0}")]
    BadReply(String),
    /// The process answered with another status than it does what it has done.
    #[error("{0}")]
    Refused(Box<Refused>),
}

/// What a process told with another status.
#[derive(Clone, Debug)]
pub struct Refused {
    /// The status.
    pub status: u16,
    /// Its word, where it told one.
    pub word: Option<String>,
    /// All that it told, where that is JSON.
    pub told: Value,
    /// After which time it may be asked again.
    pub retry_after: Option<Duration>,
}

impl fmt::Display for Refused {
    fn fmt(&self, f: &mut fmt::Formatter<'_>) -> fmt::Result {
        let word = self.word.as_deref().unwrap_or_default();
        let text = self.told["text"].as_str();
        write!(f, "{} {word}: {}", self.status, text.unwrap_or("no more"))
    }
}

impl fmt::Display for Error {
    fn fmt(&self, f: &mut fmt::Formatter<'_>) -> fmt::Result {
        write!(f, "{} (request {})", self.why, self.request_id)
    }
}

impl std::error::Error for Error {}

impl Error {
    pub(crate) fn of(why: Why, request_id: &str) -> Error {
        Error {
            why,
            request_id: request_id.to_owned(),
            key: None,
            place: None,
        }
    }

    /// The word of what a process refused.
    pub fn word(&self) -> Option<&str> {
        match &self.why {
            Why::Refused(refused) => refused.word.as_deref(),
            _ => None,
        }
    }

    /// The status with which a process refused it.
    pub fn status(&self) -> Option<u16> {
        match &self.why {
            Why::Refused(refused) => Some(refused.status),
            _ => None,
        }
    }
}

impl From<Fault> for Why {
    fn from(fault: Fault) -> Why {
        match fault {
            Fault::Unsent(why) => Why::Unreachable(why),
            Fault::Lost(why) => Why::ReplyLost(why),
        }
    }
}

impl Refused {
    pub(crate) fn of(reply: &Reply) -> Box<Refused> {
        let told: Value = serde_json::from_slice(&reply.body).unwrap_or_default();
        let seconds = reply.headers.get(RETRY_AFTER);
        let seconds = seconds.and_then(|it| it.to_str().ok()?.parse().ok());
        Box::new(Refused {
            status: reply.status.as_u16(),
            word: told["error"].as_str().map(str::to_owned),
            told,
            retry_after: seconds.map(Duration::from_secs),
        })
    }
}
