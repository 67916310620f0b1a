//! What is told. What the API does not tell so is no reply.
use crate::asked::{Asked, Semantic};
use crate::error::{Error, Refused, Why};
use crate::wire::Reply;
use hyper::StatusCode;
use serde::de::DeserializeOwned;
use serde::Deserialize;
use serde_json::Value;
use std::fmt;

/// A stamp: clock, member, and the place in its message, from 0 on.
#[derive(Clone, Copy, Debug, PartialEq, Eq, PartialOrd, Ord, Deserialize)]
#[serde(from = "StampText")]
pub struct Stamp(pub u64, pub u32, pub u32);

#[derive(Deserialize)]
#[serde(untagged)]
enum StampText {
    First(u64, u32),
    Placed(u64, u32, u32),
}

impl From<StampText> for Stamp {
    fn from(text: StampText) -> Stamp {
        match text {
            StampText::First(clock, member) => Stamp(clock, member, 0),
            StampText::Placed(clock, member, place) => Stamp(clock, member, place),
        }
    }
}

impl fmt::Display for Stamp {
    fn fmt(&self, f: &mut fmt::Formatter<'_>) -> fmt::Result {
        match self {
            Stamp(clock, member, 0) => write!(f, "{clock}.{member}"),
            Stamp(clock, member, place) => write!(f, "{clock}.{member}.{place}"),
        }
    }
}

/// Why a decision is not granted.
#[derive(Clone, Debug, PartialEq, Eq, Deserialize)]
pub struct Reason {
    /// A denial's word, or one of the API's.
    pub word: String,
    /// The denial's number.
    pub number: Option<u32>,
}

/// What an evaluation was told.
#[must_use]
#[derive(Clone, Debug, PartialEq, Eq)]
pub struct Decision {
    granted: bool,
    /// Why it is not granted.
    pub reason: Option<Reason>,
    /// The generation up to whose stamp it is right.
    pub generation: Option<u64>,
    /// That stamp.
    pub stamp: Option<Stamp>,
    /// Both, as `at_least` takes them.
    pub at: Option<String>,
}

impl Decision {
    /// Whether it is granted.
    pub fn is_granted(&self) -> bool {
        self.granted
    }
}

/// A denial: which precondition of a command failed first.
#[derive(Clone, Debug, PartialEq, Eq, Deserialize)]
pub struct Denial {
    /// Its word.
    #[serde(rename = "denied")]
    pub word: String,
    /// Its number.
    pub number: u32,
}

/// A command that was delivered, with its answer.
#[derive(Clone, Debug, PartialEq)]
pub struct Record {
    /// The answer, as the API has it.
    pub answer: Value,
    /// The command.
    pub command: Value,
    /// Its generation.
    pub generation: u64,
    /// Its stamp.
    pub stamp: Stamp,
    /// Its number in the history of its generation, where it was told with that.
    pub number: Option<u64>,
}

impl Record {
    /// Its place, as `at_least` takes it.
    pub fn at(&self) -> String {
        format!("{}.{}", self.generation, self.stamp)
    }

    /// Why it was denied; none where it was not.
    pub fn denial(&self) -> Option<Denial> {
        serde_json::from_value(self.answer.clone()).ok()
    }
}

/// Where a call with an id is asked. Asked elsewhere, it is another call.
#[derive(Clone, Copy, Debug, PartialEq, Eq)]
pub struct Place {
    /// The generation.
    pub generation: u64,
    /// The member.
    pub member: u32,
}

/// The commands that make the policy.
#[derive(Clone, Debug, Deserialize)]
pub struct Dump {
    /// Its generation.
    pub generation: u64,
    /// The commands, in their order.
    pub commands: Vec<Value>,
}

#[derive(Deserialize)]
struct ToldDecision {
    decision: bool,
    #[serde(default)]
    context: Context,
}

#[derive(Default, Deserialize)]
struct Context {
    reason: Option<Reason>,
    generation: Option<u64>,
    stamp: Option<Stamp>,
    at: Option<String>,
}

#[derive(Deserialize)]
pub(crate) struct ToldDecisions {
    evaluations: Vec<Value>,
}

#[derive(Deserialize)]
pub(crate) struct ToldRecords {
    generation: u64,
    records: Vec<Value>,
}

#[derive(Deserialize)]
struct ToldRecord {
    answer: Value,
    command: Value,
    stamp: Stamp,
}

/// What is told with status 200.
pub(crate) fn told<T: DeserializeOwned>(reply: &Reply, asked: &Asked) -> Result<T, Error> {
    let named = reply.headers.get("x-request-id");
    if named.is_some_and(|id| id.as_bytes() != asked.id.as_bytes()) {
        return Err(asked.bad("it is that to another request"));
    }
    if reply.status != StatusCode::OK {
        return Err(asked.fault(Why::Refused(Refused::of(reply))));
    }
    read(&reply.body, asked)
}

fn read<T: DeserializeOwned>(text: &[u8], asked: &Asked) -> Result<T, Error> {
    serde_json::from_slice(text).map_err(|error| asked.bad(&error.to_string()))
}

pub(crate) fn decision(told: Value, asked: &Asked) -> Result<Decision, Error> {
    let told: Result<ToldDecision, _> = serde_json::from_value(told);
    let told = told.map_err(|error| asked.bad(&error.to_string()))?;
    Ok(Decision {
        granted: told.decision,
        reason: told.context.reason,
        generation: told.context.generation,
        stamp: told.context.stamp,
        at: told.context.at,
    })
}

/// As many decisions as were asked, or, where the semantic cuts the list, up to the first that does.
pub(crate) fn decisions(
    told: ToldDecisions,
    count: usize,
    semantic: Semantic,
    asked: &Asked,
) -> Result<Vec<Decision>, Error> {
    let told = { told.evaluations.into_iter() }.map(|told| decision(told, asked));
    let decisions: Vec<Decision> = told.collect::<Result<_, _>>()?;
    let last = decisions.last().map(Decision::is_granted);
    let is_cut = decisions.len() < count && last.is_some() && last == semantic.cuts();
    match decisions.len() == count || is_cut {
        true => Ok(decisions),
        false => Err(asked.bad("not each evaluation is told a decision")),
    }
}

/// A record of each of so many commands.
pub(crate) fn records(
    told: ToldRecords,
    count: usize,
    asked: &Asked,
) -> Result<Vec<Record>, Error> {
    let ToldRecords {
        generation,
        records,
    } = told;
    if records.len() != count {
        return Err(asked.bad("not each command is told a record"));
    }
    let records = records.into_iter();
    let records = records.map(|text| record(text, generation, None, asked));
    records.collect()
}

pub(crate) fn record(
    told: Value,
    generation: u64,
    number: Option<u64>,
    asked: &Asked,
) -> Result<Record, Error> {
    let told: Result<ToldRecord, _> = serde_json::from_value(told);
    let told = told.map_err(|error| asked.bad(&error.to_string()))?;
    Ok(Record {
        answer: told.answer,
        command: told.command,
        generation,
        stamp: told.stamp,
        number,
    })
}
