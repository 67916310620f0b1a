//! OpenID AuthZEN, Authorization API 1.0, from memory of its text: evaluations, searches, and where they are found.
mod requests;

use super::asking::{Placed, Wanted};
use super::doors::Door;
use super::replies::Told;
use super::requests::{body_of, wanted_of};
use super::{Asker, Callers};
use crate::answer::Answer;
use crate::decision_log::Line;
use crate::node::{ShownAt, Stamp};
use crate::policy_questions::{Asked, Decision, Evaluation, Reason, Sought};
use hyper::header::HOST;
use hyper::{Body, Request};
use requests::{
    check_of, Page, Read, ReadEvaluation, ReadEvaluations, ReadSearch, ReadSubjectSearch, Semantic,
};
use serde::Serialize;
use serde_json::{json, Value};

/// The most evaluations of a request.
const MOST_EVALUATIONS: usize = 64;

/// The most results of a page.
const MOST_RESULTS: usize = 1000;

/// What an evaluation is told.
#[derive(Serialize)]
struct ToldDecision<'d> {
    decision: bool,
    context: Context<'d>,
}

/// What a list of evaluations is told.
#[derive(Serialize)]
struct ToldDecisions<'d> {
    evaluations: Vec<ToldDecision<'d>>,
}

/// Why a decision is not true, and the names that make its precondition fail, where they are told.
#[derive(Serialize)]
struct ToldReason<'d> {
    #[serde(flatten)]
    reason: &'d Reason,
    #[serde(skip_serializing_if = "Option::is_none")]
    names: Option<&'d Value>,
}

/// Why, and up to where that is right; nothing of the latter where the policy was not asked.
#[derive(Serialize)]
struct Context<'d> {
    #[serde(skip_serializing_if = "Option::is_none")]
    reason: Option<ToldReason<'d>>,
    #[serde(skip_serializing_if = "Option::is_none")]
    generation: Option<u64>,
    #[serde(skip_serializing_if = "Option::is_none")]
    stamp: Option<Stamp>,
    #[serde(skip_serializing_if = "Option::is_none")]
    at: Option<String>,
}

impl<'d> Context<'d> {
    fn of(
        reason: Option<&'d Reason>,
        names: Option<&'d Value>,
        at: Option<ShownAt>,
    ) -> Context<'d> {
        Context {
            reason: reason.map(|reason| ToldReason { reason, names }),
            generation: at.map(|at| at.generation),
            stamp: at.and_then(|at| at.stamp),
            at: at.map(|at| at.to_string()),
        }
    }
}

/// An evaluation, what it is told, and up to where that is right.
struct Decided {
    evaluation: Evaluation,
    decision: Decision,
    /// Of a denial, the names that make its precondition fail.
    names: Option<Value>,
    at: Option<ShownAt>,
}

impl Decided {
    fn told(&self) -> ToldDecision<'_> {
        ToldDecision {
            decision: self.decision.is_granted(),
            context: Context::of(self.decision.reason.as_ref(), self.names.as_ref(), self.at),
        }
    }
}

impl Callers {
    pub(super) async fn answer_evaluation(
        &self,
        asker: &Asker,
        request: Request<Body>,
    ) -> Result<Told, Told> {
        let wanted = wanted_of(request.uri())?;
        let body = body_of(asker, request).await?;
        let evaluation = ReadEvaluation::read(&body)?.evaluation()?;
        let decided = self.decide_one(asker, wanted, evaluation).await?;
        Ok(Told::json(&decided.told()))
    }

    /// The same for who reads nothing but the status.
    pub(super) async fn answer_check(
        &self,
        asker: &Asker,
        request: &Request<Body>,
    ) -> Result<Told, Told> {
        let (evaluation, wanted) = check_of(request.uri())?;
        let decided = self.decide_one(asker, wanted, evaluation).await?;
        Ok(match decided.decision.is_granted() {
            true => Told::Granted,
            false => Told::not_granted(&decided.told()),
        })
    }

    async fn decide_one(
        &self,
        asker: &Asker,
        wanted: Wanted,
        evaluation: Evaluation,
    ) -> Result<Decided, Told> {
        asker.caller.spend(1, 0);
        let mut decided = self.decide(wanted, vec![evaluation]).await?;
        self.note(asker, wanted, &decided).await?;
        Ok(decided.swap_remove(0))
    }

    pub(super) async fn answer_evaluations(
        &self,
        asker: &Asker,
        request: Request<Body>,
    ) -> Result<Told, Told> {
        let wanted = wanted_of(request.uri())?;
        let body = body_of(asker, request).await?;
        let asked = ReadEvaluations::read(&body)?;
        let Some(count) = asked.count() else {
            let decided = self.decide_one(asker, wanted, asked.alone()?).await?;
            return Ok(Told::json(&decided.told()));
        };
        if count > MOST_EVALUATIONS {
            return Err(Told::TooMany(MOST_EVALUATIONS));
        }
        let semantic = asked.semantic();
        let evaluations = asked.each()?;
        asker.caller.spend(count, 0);
        let mut decided = self.decide(wanted, evaluations).await?;
        decided.truncate(told_of(semantic, &decided));
        self.note(asker, wanted, &decided).await?;
        let evaluations = decided.iter().map(Decided::told).collect();
        Ok(Told::json(&ToldDecisions { evaluations }))
    }

    /// Decides evaluations: all that are asked of the policy together.
    async fn decide(
        &self,
        wanted: Wanted,
        evaluations: Vec<Evaluation>,
    ) -> Result<Vec<Decided>, Told> {
        let mut questions: Vec<Asked> = Vec::with_capacity(evaluations.len());
        let known: Vec<Option<Decision>> = { evaluations.iter() }
            .map(|evaluation| match evaluation.asked(&self.names) {
                Ok(asked) => {
                    questions.push(asked);
                    None
                }
                Err(decision) => Some(decision),
            })
            .collect();
        let mut asked = questions.iter();
        let mut placed = self.answers(&questions, wanted).await?.into_iter();
        let mut decided = Vec::with_capacity(evaluations.len());
        for (known, evaluation) in known.into_iter().zip(evaluations) {
            let (decision, names, at) = match known {
                Some(decision) => (decision, None, None),
                None => {
                    let (answer, at) = placed.next().expect("each question is answered");
                    let asked = asked.next().expect("each answer has a question");
                    let names = self.names_of(asked, &answer).await;
                    (evaluation.decision(&answer), names, Some(at))
                }
            };
            decided.push(Decided {
                evaluation,
                decision,
                names,
                at,
            });
        }
        Ok(decided)
    }

    /// Of a denial the names that make its precondition fail, as the library tells them of the policy that is shown. None where that one tells
    /// another denial, or nothing; and of NotOwner, which would name the owner to who may but ask for checks.
    async fn names_of(&self, asked: &Asked, answer: &Answer) -> Option<Value> {
        let Answer::Denied { denied, .. } = answer else {
            return None;
        };
        if denied == "NotOwner" {
            return None;
        }
        let shown = self.shown(asked.reasons(), None).await.ok()?;
        shown.answers.into_iter().find_map(|why| match why {
            Ok(Answer::Why(mut why)) if why["denied"] == **denied => Some(why["names"].take()),
            _ => None,
        })
    }

    /// Counts decisions, and writes them to the decision log.
    async fn note(&self, asker: &Asker, wanted: Wanted, decided: &[Decided]) -> Result<(), Told> {
        self.log(|| {
            decided
                .iter()
                .map(|it| self.line(asker, wanted, it))
                .collect()
        })
        .await?;
        let granted = decided.iter().filter(|it| it.decision.is_granted()).count();
        self.asking
            .metrics
            .decided(granted, decided.len() - granted);
        Ok(())
    }

    fn line(&self, asker: &Asker, wanted: Wanted, decided: &Decided) -> Line {
        let at = decided.at;
        Line {
            consistency: at.map(|_| self.view(wanted)),
            stamp: at.and_then(|at| at.stamp),
            evaluation: Some(decided.evaluation.clone()),
            decision: Some(decided.decision.is_granted()),
            answer: json!(decided.decision.reason),
            ..asker.line("evaluation", at.map_or(0, |at| at.generation))
        }
    }

    pub(super) async fn answer_search_action(
        &self,
        asker: &Asker,
        request: Request<Body>,
    ) -> Result<Told, Told> {
        let search = |read: ReadSearch| read.for_actions();
        let told = |name: &str| json!({ "name": name });
        self.search(asker, request, search, told).await
    }

    pub(super) async fn answer_search_resource(
        &self,
        asker: &Asker,
        request: Request<Body>,
    ) -> Result<Told, Told> {
        let wanted = wanted_of(request.uri())?;
        let body = body_of(asker, request).await?;
        let read = ReadSearch::read(&body)?;
        let kind = read.resource_kind()?;
        let told = |name: &str| json!({ "type": kind, "id": name });
        let (sought, page) = read.for_resources()?;
        self.found(asker, wanted, sought, page, told).await
    }

    pub(super) async fn answer_search_subject(
        &self,
        asker: &Asker,
        request: Request<Body>,
    ) -> Result<Told, Told> {
        let wanted = wanted_of(request.uri())?;
        let body = body_of(asker, request).await?;
        let (sought, page) = ReadSubjectSearch::read(&body)?.sought()?;
        let kind = match &sought {
            Sought::Subjects { kind, .. } => kind.clone(),
            _ => unreachable!("subjects are sought"),
        };
        let told = |name: &str| json!({ "type": kind, "id": name });
        self.found(asker, wanted, sought, page, told).await
    }

    async fn search(
        &self,
        asker: &Asker,
        request: Request<Body>,
        search: impl FnOnce(ReadSearch) -> Result<(Sought, Page), Told>,
        told: impl Fn(&str) -> serde_json::Value,
    ) -> Result<Told, Told> {
        let wanted = wanted_of(request.uri())?;
        let body = body_of(asker, request).await?;
        let (sought, page) = search(ReadSearch::read(&body)?)?;
        self.found(asker, wanted, sought, page, told).await
    }

    /// Tells a page of what is found. The next one begins behind its last name, whatever the policy has become.
    async fn found(
        &self,
        asker: &Asker,
        wanted: Wanted,
        sought: Sought,
        page: Page,
        told: impl Fn(&str) -> serde_json::Value,
    ) -> Result<Told, Told> {
        asker.caller.spend(1, 0);
        let mut at = None;
        let found = match sought.asked(&self.names) {
            Ok(asked) => {
                let placed = self.answers(&[asked], wanted).await?.pop();
                let (answer, there): Placed = placed.expect("a question is answered");
                at = Some(there);
                sought.found(answer)
            }
            Err(reason) => Err(reason),
        };
        let (names, reason) = match found {
            Ok(names) => (names, None),
            Err(reason) => (Vec::new(), Some(reason)),
        };
        let total = names.len();
        let behind = |name: &String| page.token.as_ref().is_none_or(|last| name > last);
        let mut names: Vec<String> = names.into_iter().filter(behind).collect();
        let is_last = names.len() <= page.limit(MOST_RESULTS);
        names.truncate(page.limit(MOST_RESULTS));
        let line = || Line {
            consistency: at.map(|_| self.view(wanted)),
            stamp: at.and_then(|at| at.stamp),
            search: Some(sought.clone()),
            answer: match &reason {
                Some(reason) => json!(reason),
                None => json!({ "names": names }),
            },
            ..asker.line("search", at.map_or(0, |at| at.generation))
        };
        self.log(|| vec![line()]).await?;
        let next = names.last().filter(|_| !is_last);
        let results: Vec<_> = names.iter().map(|name| told(name)).collect();
        Ok(Told::json(&json!({
            "results": results,
            "page": {
                "next_token": next.map_or("", String::as_str),
                "count": results.len(),
                "total": total,
            },
            "context": Context::of(reason.as_ref(), None, at),
        })))
    }

    /// Where what is asked is found.
    pub(super) fn answer_configuration(&self, door: &Door, request: &Request<Body>) -> Told {
        let host = request.headers().get(HOST);
        let host = host.and_then(|host| host.to_str().ok());
        let scheme = if door.is_tls() { "https" } else { "http" };
        let base = match &self.public_url {
            Some(url) => url.trim_end_matches('/').to_owned(),
            None => format!("{scheme}://{}", host.unwrap_or("localhost")),
        };
        let at = |path: &str| format!("{base}/access/v1/{path}");
        Told::json(&json!({
            "policy_decision_point": base,
            "access_evaluation_endpoint": at("evaluation"),
            "access_evaluations_endpoint": at("evaluations"),
            "search_action_endpoint": at("search/action"),
            "search_resource_endpoint": at("search/resource"),
            "search_subject_endpoint": at("search/subject"),
        }))
    }
}

/// How many decisions are told: up to the first that ends the list.
fn told_of(semantic: Semantic, decided: &[Decided]) -> usize {
    let ends = |it: &Decided| match semantic {
        Semantic::ExecuteAll => false,
        Semantic::DenyOnFirstDeny => !it.decision.is_granted(),
        Semantic::PermitOnFirstPermit => it.decision.is_granted(),
    };
    let first = decided.iter().position(ends);
    first.map_or(decided.len(), |first| first + 1)
}
