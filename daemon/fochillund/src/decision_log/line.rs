//! A line of the decision log.
use crate::node::Stamp;
use crate::policy_questions::{Evaluation, Search};
use serde::{Deserialize, Serialize};
use serde_json::value::RawValue;
use serde_json::Value;
use std::time::SystemTime;

/// By what a decision was made.
#[derive(Clone, Copy, Debug, PartialEq, Eq, Serialize, Deserialize)]
#[serde(rename_all = "lowercase")]
pub enum View {
    /// By a command in the members' order.
    Ordered,
    /// By what the process had delivered.
    Local,
}

/// One decision: who asked what, when, and what it was told.
#[derive(Clone, Debug, Serialize, Deserialize)]
pub struct Line {
    /// When it was told, by the machine's clock.
    pub time: String,
    /// Who asked.
    pub caller: String,
    /// As the caller calls its request.
    #[serde(skip_serializing_if = "Option::is_none")]
    pub request_id: Option<String>,
    /// What kind of request it was.
    pub route: String,
    /// By what it was decided; none where nothing was asked, since a text is no name.
    #[serde(skip_serializing_if = "Option::is_none")]
    pub consistency: Option<View>,
    /// The generation up to whose stamp it is right.
    pub generation: u64,
    /// That stamp; of a command, its own.
    #[serde(skip_serializing_if = "Option::is_none")]
    pub stamp: Option<Stamp>,
    /// An evaluation that was asked.
    #[serde(skip_serializing_if = "Option::is_none")]
    pub evaluation: Option<Evaluation>,
    /// A search that was asked.
    #[serde(skip_serializing_if = "Option::is_none")]
    pub search: Option<Search>,
    /// A command that was asked.
    #[serde(skip_serializing_if = "Option::is_none")]
    pub command: Option<Box<RawValue>>,
    /// Whether an evaluation was told true.
    #[serde(skip_serializing_if = "Option::is_none")]
    pub decision: Option<bool>,
    /// The reason, the names that a search found, or a command's answer.
    pub answer: Value,
}

impl Line {
    /// One that is told now, of what nothing is known yet.
    pub fn of(caller: &str, route: &str, generation: u64) -> Line {
        Line {
            time: humantime::format_rfc3339_millis(SystemTime::now()).to_string(),
            caller: caller.to_owned(),
            request_id: None,
            route: route.to_owned(),
            consistency: None,
            generation,
            stamp: None,
            evaluation: None,
            search: None,
            command: None,
            decision: None,
            answer: Value::Null,
        }
    }
}
