//! Questions about the policy: in the members' order, or by what is delivered here.
use super::replies::Told;
use super::Callers;
use crate::answer::Answer;
use crate::decision_log::View;
use crate::node::{Answered, NodeRefusal, Query, Shown, ShownAt, Stamp};
use crate::policy_questions::Asked;
use crate::process::{AskedCall, AskedQueries, Question};
use crate::row_member::{NewCall, Refusal, MOST_COMMANDS};
use fochillun::MemberError;
use serde::Deserialize;
use serde_json::value::RawValue;
use std::time::{Duration, Instant};
use tokio::sync::oneshot;

/// After this time a question is asked again in the next generation, which has not begun yet.
const PAUSE: Duration = Duration::from_millis(20);

/// A review of nothing much, for its place in the order alone.
const BARRIER: &str = r#"[{"name":"SsdRoleSets"}]"#;

/// How a question is to be answered.
#[derive(Clone, Copy, Debug, Default, PartialEq, Eq)]
pub(super) struct Wanted {
    /// In the order, or by what is delivered; as is the custom here, where it is not said.
    pub(super) view: Option<View>,
    /// What the answer has to rest on at least.
    pub(super) at_least: Option<ShownAt>,
}

/// An answer, and up to where it is right.
pub(super) type Placed = (Answer, ShownAt);

/// What is looked at of a record.
#[derive(Debug, Deserialize)]
pub(super) struct Record {
    pub(super) answer: Answer,
    pub(super) command: Box<RawValue>,
    pub(super) stamp: Stamp,
}

impl Callers {
    /// By what a question is answered.
    pub(super) fn view(&self, wanted: Wanted) -> View {
        wanted.view.unwrap_or(match self.is_member {
            true => View::Ordered,
            false => View::Local,
        })
    }

    /// What these questions are told. Those that are asked by what is delivered here are told by one state.
    pub(super) async fn answers(
        &self,
        asked: &[Asked],
        wanted: Wanted,
    ) -> Result<Vec<Placed>, Told> {
        if asked.is_empty() {
            return Ok(Vec::new());
        }
        match self.view(wanted) {
            View::Local => self.local_answers(asked, wanted.at_least).await,
            View::Ordered => self.ordered_answers(asked, wanted.at_least).await,
        }
    }

    async fn local_answers(
        &self,
        asked: &[Asked],
        at_least: Option<ShownAt>,
    ) -> Result<Vec<Placed>, Told> {
        let queries = asked.iter().flat_map(Asked::queries).collect();
        let shown = self.shown(queries, at_least).await?;
        let mut told = shown.answers.into_iter();
        let answers = asked
            .iter()
            .map(|asked| Ok((asked.answer(&mut told)?, shown.at)));
        answers.collect::<Result<_, _>>().map_err(not_asked)
    }

    /// Asks by commands of the member's own. Where a command's answer is not the whole answer, the rest is asked behind it.
    async fn ordered_answers(
        &self,
        asked: &[Asked],
        at_least: Option<ShownAt>,
    ) -> Result<Vec<Placed>, Told> {
        let mut placed = Vec::with_capacity(asked.len());
        for some in asked.chunks(MOST_COMMANDS) {
            let commands: Vec<String> = some.iter().map(Asked::command).collect();
            let told = self.call_here(&format!("[{}]", commands.join(","))).await?;
            for (asked, record) in some.iter().zip(records(&told)) {
                let at = ShownAt {
                    generation: told.generation,
                    stamp: Some(record.stamp),
                };
                placed.push(match asked.is_told_by_command() {
                    true => (record.answer, at),
                    false => self.answer_behind(asked, at).await?,
                });
            }
        }
        match placed.iter().find(|(_, at)| Some(*at) < at_least) {
            Some(_) => Err(Told::Behind(self.state().await?)),
            None => Ok(placed),
        }
    }

    async fn answer_behind(&self, asked: &Asked, at: ShownAt) -> Result<Placed, Told> {
        let shown = self.shown(asked.queries(), Some(at)).await?;
        let answer = asked.answer(&mut shown.answers.into_iter());
        Ok((answer.map_err(not_asked)?, shown.at))
    }

    /// Asks by what was delivered here, where the rows were read lately.
    pub(super) async fn shown(
        &self,
        queries: Vec<Query>,
        at_least: Option<ShownAt>,
    ) -> Result<Shown, Told> {
        let (tell, told) = oneshot::channel();
        let asked = AskedQueries { queries, at_least };
        self.put(Question::Ask(asked, tell)).await?;
        let told = tokio::time::timeout(self.patience, told).await;
        if self.asking.engine.read_ago() > self.freshness {
            return Err(Told::Stale(self.state().await?));
        }
        match told {
            Ok(Ok(shown)) => Ok(shown),
            Ok(Err(_)) => Err(Told::Ends),
            Err(_) => Err(Told::Behind(self.state().await?)),
        }
    }

    /// A place of the order that is behind all that was told before.
    pub(super) async fn barrier(&self) -> Result<ShownAt, Told> {
        let told = self.call_here(BARRIER).await?;
        let record = records(&told).next();
        Ok(ShownAt {
            generation: told.generation,
            stamp: record.map(|record| record.stamp),
        })
    }

    /// Asks commands that change nothing in the generation that goes on, and in the next where that ends without them.
    async fn call_here(&self, commands: &str) -> Result<Answered, Told> {
        let began = Instant::now();
        loop {
            let commands = RawValue::from_string(commands.to_owned()).expect("commands are JSON");
            let call = NewCall {
                identity: None,
                commands,
            };
            let (waiter, told) = oneshot::channel();
            let asked = AskedCall {
                at: None,
                call,
                authority: None,
                waiter,
            };
            self.put(Question::Call(Box::new(asked))).await?;
            match tokio::time::timeout(self.patience, told).await {
                Ok(Ok(Ok(answered))) => return Ok(answered),
                Ok(Ok(Err(refusal))) if is_over(refusal) && began.elapsed() < self.patience => {
                    tokio::time::sleep(PAUSE).await;
                }
                Ok(Ok(Err(refusal))) => return Err(Told::Refused(refusal)),
                Ok(Err(_)) => return Err(Told::Ends),
                Err(_) => return Err(Told::Waits(self.state().await?)),
            }
        }
    }
}

fn is_over(refusal: NodeRefusal) -> bool {
    matches!(
        refusal,
        NodeRefusal::NotTaken { .. } | NodeRefusal::Call(Refusal::NotTaken)
    )
}

/// The records of what was answered.
pub(super) fn records(answered: &Answered) -> impl Iterator<Item = Record> + '_ {
    let record = |text: &String| serde_json::from_str(text).expect("a record of the library");
    answered.records.iter().map(record)
}

/// Of a question that is made of names, and is a review or a check.
fn not_asked(why: MemberError) -> Told {
    Told::Refused(NodeRefusal::Call(Refusal::Commands(why)))
}
