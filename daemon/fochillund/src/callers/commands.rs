//! Commands of callers.
use super::asking::{records, Record};
use super::replies::Told;
use super::requests::body_of;
use super::{Asker, Callers};
use crate::access::{scope_of, Bound, Scope};
use crate::decision_log::{Line, View};
use crate::node::Answered;
use crate::process::{AskedCall, Authority, Question};
use crate::row_member::NewCall;
use hyper::header::HeaderName;
use hyper::{Body, HeaderMap, Request};
use rows::cell::Identity;
use serde::Deserialize;
use serde_json::value::RawValue;
use std::borrow::Cow;
use std::collections::BTreeSet;
use tokio::sync::oneshot;

/// The most bytes of a call's id.
const LONGEST_ID: usize = 128;

/// By which header a call may be given its id.
const IDEMPOTENCY_KEY: HeaderName = HeaderName::from_static("idempotency-key");

/// A call.
#[derive(Debug, Deserialize)]
#[serde(deny_unknown_fields)]
struct Asked {
    generation: Option<u64>,
    member: Option<u32>,
    id: Option<String>,
    commands: Option<Box<RawValue>>,
    /// In place of `commands`, one of them.
    command: Option<Box<RawValue>>,
}

/// What is looked at of a command before the library reads it.
#[derive(Debug, Deserialize)]
struct Named<'t> {
    #[serde(borrow)]
    name: Cow<'t, str>,
}

impl Callers {
    /// Carries commands out, where the caller may ask each of them.
    pub(super) async fn answer_call(
        &self,
        asker: &Asker,
        request: Request<Body>,
    ) -> Result<Told, Told> {
        let key = id_of(request.headers())?;
        let body = body_of(asker, request).await?;
        let asked: Asked = serde_json::from_str(&body).map_err(bad)?;
        let commands = one_list(asked.commands, asked.command)?;
        let id = one_id(asked.id, key)?;
        let at = match (asked.generation, asked.member) {
            (Some(generation), Some(member)) => Some((generation, member)),
            (None, None) if id.is_none() => None,
            // Asked elsewhere, it would be carried out once more.
            _ => return Err(bad("a call with an id names its generation and its member")),
        };
        let authority = self.authority(asker, &commands)?;
        let caller = asker.caller.identity.clone();
        let identity = id.map(|id| Identity { caller, id });
        let (waiter, told) = oneshot::channel();
        let call = AskedCall {
            at,
            call: NewCall { identity, commands },
            authority,
            waiter,
        };
        self.put(Question::Call(Box::new(call))).await?;
        match tokio::time::timeout(self.patience, told).await {
            Ok(Ok(Ok(answered))) => {
                self.log(|| lines(asker, &answered)).await?;
                Ok(Told::Answered(answered))
            }
            Ok(Ok(Err(refusal))) => Err(Told::Refused(refusal)),
            Ok(Err(_)) => Err(Told::Ends),
            Err(_) => Err(Told::Waits(self.state().await?)),
        }
    }

    /// By whose authority commands are asked that need one; none where the caller's scopes are enough.
    pub(super) fn authority(
        &self,
        asker: &Asker,
        commands: &RawValue,
    ) -> Result<Option<Authority>, Told> {
        let caller = &asker.caller;
        let names: Option<Vec<Named<'_>>> = serde_json::from_str(commands.get()).ok();
        let Some(names) = names else {
            // Nobody knows what that is before the library has read it: it takes who may ask anything.
            let lacking = Scope::ALL.into_iter().find(|scope| !caller.may(*scope));
            return match (lacking, &caller.bound) {
                (None, None) => Ok(None),
                (lacking, _) => Err(Told::OutOfScope(lacking.unwrap_or(Scope::Administer))),
            };
        };
        caller.spend(names.len(), 0);
        let mut administers = BTreeSet::new();
        for Named { name } in names {
            let scope = scope_of(&name);
            if !caller.may(scope) {
                return Err(Told::OutOfScope(scope));
            }
            if scope == Scope::Administer {
                administers.insert(name.into_owned());
            }
        }
        let bound = caller.bound.as_ref().filter(|_| !administers.is_empty());
        Ok(bound.map(|Bound { user, session }| Authority {
            user: user.clone(),
            session: session.clone(),
            commands: administers.into_iter().collect(),
        }))
    }
}

fn lines(asker: &Asker, answered: &Answered) -> Vec<Line> {
    let line = |record: Record| Line {
        consistency: Some(View::Ordered),
        stamp: Some(record.stamp),
        command: Some(record.command),
        answer: serde_json::to_value(record.answer).expect("an answer is JSON"),
        ..asker.line("commands", answered.generation)
    };
    records(answered).map(line).collect()
}

/// The commands of a request: `commands`, or `command` alone.
pub(super) fn one_list(
    commands: Option<Box<RawValue>>,
    command: Option<Box<RawValue>>,
) -> Result<Box<RawValue>, Told> {
    match (commands, command) {
        (Some(commands), None) => Ok(commands),
        (None, Some(one)) => {
            Ok(RawValue::from_string(format!("[{}]", one.get())).expect("an array of JSON"))
        }
        _ => Err(bad("either `commands` or `command` is there")),
    }
}

pub(super) fn bad(why: impl ToString) -> Told {
    Told::BadRequest(why.to_string())
}

fn id_of(headers: &HeaderMap) -> Result<Option<String>, Told> {
    let id = headers.get(IDEMPOTENCY_KEY);
    let text = id.map(|id| id.to_str().map(str::to_owned));
    text.transpose()
        .map_err(|_| bad("Idempotency-Key is visible ASCII"))
}

/// The id of a call, by its body or its header.
fn one_id(id: Option<String>, key: Option<String>) -> Result<Option<String>, Told> {
    let id = match (id, key) {
        (Some(id), Some(key)) if id != key => {
            return Err(bad("`id` and Idempotency-Key are not the same"));
        }
        (id, key) => id.or(key),
    };
    let is_id = |id: &String| !id.is_empty() && id.len() <= LONGEST_ID;
    match id.as_ref().is_none_or(is_id) {
        true => Ok(id),
        false => Err(bad(format!("an id has 1 to {LONGEST_ID} bytes"))),
    }
}
