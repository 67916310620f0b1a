//! Commands that are tried: carried out on a copy of the policy that is shown, which is dropped then.
use super::commands::{bad, one_list};
use super::replies::Told;
use super::requests::{body_of, wanted_of};
use super::{Asker, Callers};
use crate::decision_log::{Line, View};
use crate::message::commands_of;
use crate::node::{NodeRefusal, ShownAt};
use crate::policy::Policy;
use crate::process::{Authority, Dumped};
use crate::row_member::Refusal;
use fochillun::{Member, MemberError};
use hyper::{Body, Request};
use serde::Deserialize;
use serde_json::value::RawValue;
use serde_json::{json, Value};

/// What is tried.
#[derive(Debug, Deserialize)]
#[serde(deny_unknown_fields)]
struct Asked {
    commands: Option<Box<RawValue>>,
    /// In place of `commands`, one of them.
    command: Option<Box<RawValue>>,
}

/// A command that was tried, its answer, and why.
struct Tried {
    command: Box<RawValue>,
    answer: Value,
    reason: Value,
}

impl Callers {
    /// What commands would be answered now, where the caller may ask each of them. Nothing is changed, and no other member hears of it.
    pub(super) async fn answer_try(
        &self,
        asker: &Asker,
        request: Request<Body>,
    ) -> Result<Told, Told> {
        let wanted = wanted_of(request.uri())?;
        let body = body_of(asker, request).await?;
        let asked: Asked = serde_json::from_str(&body).map_err(bad)?;
        let commands = one_list(asked.commands, asked.command)?;
        if let Some(authority) = self.authority(asker, &commands)? {
            self.check_authority(&authority).await?;
        }
        // A copy takes memory and a processor's time: one is made at a time.
        let turn = self.tries.acquire().await;
        let dumped = self.dumped(wanted).await?;
        let at = dumped.at;
        let tried = tokio::task::spawn_blocking(move || tried(&dumped, &commands));
        let tried = tried.await.map_err(|_| Told::Ends)?;
        drop(turn);
        let tried =
            tried.map_err(|why| Told::Refused(NodeRefusal::Call(Refusal::Commands(why))))?;
        self.log(|| lines(asker, at, &tried)).await?;
        let answers: Vec<&Value> = tried.iter().map(|it| &it.answer).collect();
        let reasons: Vec<&Value> = tried.iter().map(|it| &it.reason).collect();
        Ok(Told::json(&json!({
            "generation": at.generation,
            "stamp": at.stamp,
            "at": at.to_string(),
            "answers": answers,
            "reasons": reasons,
        })))
    }

    /// Refuses a caller whose session may not administer so, by what was delivered here.
    async fn check_authority(&self, authority: &Authority) -> Result<(), Told> {
        let shown = self.shown(authority.queries(), None).await?;
        match authority.is_given(&shown.answers) {
            true => Ok(()),
            false => Err(Told::Refused(NodeRefusal::NotPermitted)),
        }
    }
}

/// The answers to commands, one behind the other, on a policy that is made anew for them.
fn tried(dumped: &Dumped, commands: &RawValue) -> Result<Vec<Tried>, MemberError> {
    let no_memory = |_| MemberError::NoMemory;
    let founding = dumped.founding.as_bytes();
    // What a member refuses to send is refused here, by the same call and in the same order.
    let mut reader = Member::open(founding, 1).map_err(no_memory)?;
    let message = reader.next_submit_batch(0, 0, commands.get())?;
    let mut policy = Policy::of(founding).map_err(no_memory)?;
    let made = policy.apply_dump(dumped.commands.iter().map(String::as_str));
    made.map_err(|_| MemberError::NoMemory)?;
    let answered = |command: &str| {
        let reason = policy.why(command)?;
        let answer = policy.apply(command).map_err(|_| MemberError::NoMemory)?;
        Ok(Tried {
            command: RawValue::from_string(command.to_owned()).expect("a command is JSON"),
            answer: serde_json::from_str(&answer).expect("an answer of the library"),
            reason,
        })
    };
    commands_of(&message).into_iter().map(answered).collect()
}

fn lines(asker: &Asker, at: ShownAt, tried: &[Tried]) -> Vec<Line> {
    let line = |tried: &Tried| Line {
        consistency: Some(View::Local),
        stamp: at.stamp,
        command: Some(tried.command.clone()),
        answer: tried.answer.clone(),
        ..asker.line(crate::decision_log::TRY, at.generation)
    };
    tried.iter().map(line).collect()
}
