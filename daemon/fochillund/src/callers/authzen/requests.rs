//! What is read of AuthZEN's requests. Fields that are not named here, as properties, are read by nobody.
use super::super::asking::Wanted;
use super::super::replies::Told;
use super::super::requests::{wanted_by, words};
use crate::policy_questions::{Evaluation, Sought, Subject};
use hyper::Uri;
use percent_encoding::percent_decode_str;
use serde::de::DeserializeOwned;
use serde::Deserialize;
use std::collections::BTreeMap;

/// What has a type and an id.
#[derive(Clone, Debug, Deserialize)]
struct Entity {
    #[serde(rename = "type")]
    kind: String,
    id: String,
}

/// A type of which a search finds the ids.
#[derive(Clone, Debug, Deserialize)]
struct Kind {
    #[serde(rename = "type")]
    kind: String,
    id: Option<String>,
}

#[derive(Clone, Debug, Deserialize)]
struct Action {
    name: String,
}

#[derive(Clone, Debug, Deserialize)]
struct Context {
    session: Option<String>,
}

/// An evaluation, of which each part may be missing.
#[derive(Clone, Debug, Default, Deserialize)]
pub(super) struct ReadEvaluation {
    subject: Option<Entity>,
    action: Option<Action>,
    resource: Option<Entity>,
    context: Option<Context>,
}

/// When a list of evaluations ends.
#[derive(Clone, Copy, Debug, Default, Deserialize)]
#[serde(rename_all = "snake_case")]
pub(super) enum Semantic {
    /// At its end.
    #[default]
    ExecuteAll,
    /// Behind the first that is not granted.
    DenyOnFirstDeny,
    /// Behind the first that is.
    PermitOnFirstPermit,
}

#[derive(Debug, Default, Deserialize)]
struct Options {
    #[serde(default)]
    evaluations_semantic: Semantic,
}

/// A list of evaluations, and what holds of each that says nothing else.
#[derive(Debug, Deserialize)]
pub(super) struct ReadEvaluations {
    subject: Option<Entity>,
    action: Option<Action>,
    resource: Option<Entity>,
    context: Option<Context>,
    evaluations: Option<Vec<ReadEvaluation>>,
    options: Option<Options>,
}

/// A search.
#[derive(Debug, Deserialize)]
pub(super) struct ReadSearch {
    subject: Option<Entity>,
    action: Option<Action>,
    resource: Option<Kind>,
    context: Option<Context>,
    page: Option<Page>,
}

/// A search of subjects.
#[derive(Debug, Deserialize)]
pub(super) struct ReadSubjectSearch {
    subject: Option<Kind>,
    action: Option<Action>,
    resource: Option<Entity>,
    page: Option<Page>,
}

/// Which part of a search's results is told.
#[derive(Debug, Default, Deserialize)]
pub(super) struct Page {
    /// The last name of the page before.
    pub(super) token: Option<String>,
    limit: Option<usize>,
}

impl Page {
    pub(super) fn limit(&self, most: usize) -> usize {
        self.limit.map_or(most, |limit| limit.clamp(1, most))
    }
}

pub(super) trait Read: DeserializeOwned {
    /// Reads a body.
    fn read(body: &str) -> Result<Self, Told> {
        serde_json::from_str(body).map_err(|error| Told::BadRequest(error.to_string()))
    }
}

impl Read for ReadEvaluation {}
impl Read for ReadEvaluations {}
impl Read for ReadSearch {}
impl Read for ReadSubjectSearch {}

fn there<T>(part: Option<T>, name: &str) -> Result<T, Told> {
    part.ok_or_else(|| Told::BadRequest(format!("{name} is missing")))
}

fn subject_of(subject: Option<Entity>, context: Option<Context>) -> Result<Subject, Told> {
    let Entity { kind, id } = there(subject, "subject")?;
    // A session is itself, whatever else is said.
    let session = context.and_then(|context| context.session);
    let session = session.filter(|_| kind != "session");
    Ok(Subject { kind, id, session })
}

impl ReadEvaluation {
    pub(super) fn evaluation(self) -> Result<Evaluation, Told> {
        Ok(Evaluation {
            subject: subject_of(self.subject, self.context)?,
            action: there(self.action, "action")?.name,
            resource: there(self.resource, "resource")?.id,
        })
    }
}

impl ReadEvaluations {
    /// How many there are; none where the request is one evaluation.
    pub(super) fn count(&self) -> Option<usize> {
        let evaluations = self.evaluations.as_ref();
        evaluations.map(Vec::len).filter(|count| *count > 0)
    }

    pub(super) fn semantic(&self) -> Semantic {
        let options = self.options.as_ref();
        options.map_or_else(Semantic::default, |it| it.evaluations_semantic)
    }

    /// What holds of each.
    fn common(&self) -> ReadEvaluation {
        ReadEvaluation {
            subject: self.subject.clone(),
            action: self.action.clone(),
            resource: self.resource.clone(),
            context: self.context.clone(),
        }
    }

    /// The one evaluation of a request without a list.
    pub(super) fn alone(&self) -> Result<Evaluation, Told> {
        self.common().evaluation()
    }

    /// Each evaluation, with what holds of all where it says nothing itself.
    pub(super) fn each(self) -> Result<Vec<Evaluation>, Told> {
        let common = self.common();
        let evaluations = self.evaluations.into_iter().flatten();
        let each = evaluations.map(|it| {
            let ReadEvaluation {
                subject,
                action,
                resource,
                context,
            } = it;
            ReadEvaluation {
                subject: subject.or_else(|| common.subject.clone()),
                action: action.or_else(|| common.action.clone()),
                resource: resource.or_else(|| common.resource.clone()),
                context: context.or_else(|| common.context.clone()),
            }
            .evaluation()
        });
        each.collect()
    }
}

impl ReadSubjectSearch {
    pub(super) fn sought(self) -> Result<(Sought, Page), Told> {
        let sought = Sought::Subjects {
            kind: there(self.subject, "subject")?.kind,
            action: there(self.action, "action")?.name,
            resource: there(self.resource, "resource")?.id,
        };
        Ok((sought, self.page.unwrap_or_default()))
    }
}

impl ReadSearch {
    /// Of a search of resources, their type.
    pub(super) fn resource_kind(&self) -> Result<String, Told> {
        let resource = there(self.resource.as_ref(), "resource")?;
        Ok(resource.kind.clone())
    }

    pub(super) fn for_actions(self) -> Result<(Sought, Page), Told> {
        let resource = there(self.resource, "resource")?;
        let sought = Sought::Actions {
            subject: subject_of(self.subject, self.context)?,
            resource: there(resource.id, "the resource's id")?,
        };
        Ok((sought, self.page.unwrap_or_default()))
    }

    pub(super) fn for_resources(self) -> Result<(Sought, Page), Told> {
        let sought = Sought::Resources {
            subject: subject_of(self.subject, self.context)?,
            action: there(self.action, "action")?.name,
        };
        Ok((sought, self.page.unwrap_or_default()))
    }
}

/// The evaluation of a query, and how it is to be answered. Each word stands there once and is one of these, so that nobody who brings a part of the
/// query's text changes another one.
pub(super) fn check_of(uri: &Uri) -> Result<(Evaluation, Wanted), Told> {
    let mut wanted = Wanted::default();
    let mut texts = BTreeMap::new();
    for (name, value) in words(uri) {
        let is_known = ["user", "session", "operation", "object"].contains(&name);
        if !is_known {
            let known = wanted_by(&mut wanted, name, value);
            known.map_err(|_| bad_check("a word is not known"))?;
        }
        let value = percent_decode_str(value).decode_utf8();
        let value = value.map_err(|_| bad_check("a text is no UTF-8"))?;
        if texts.insert(name, value.into_owned()).is_some() {
            return Err(bad_check("a word stands there twice"));
        }
    }
    let (user, session) = (texts.remove("user"), texts.remove("session"));
    let subject = match (user, session) {
        (Some(id), session) => Subject {
            kind: "user".to_owned(),
            id,
            session,
        },
        (None, Some(id)) => Subject {
            kind: "session".to_owned(),
            id,
            session: None,
        },
        (None, None) => return Err(bad_check("nobody is named")),
    };
    let evaluation = Evaluation {
        subject,
        action: there(texts.remove("operation"), "operation")?,
        resource: there(texts.remove("object"), "object")?,
    };
    Ok((evaluation, wanted))
}

fn bad_check(why: &str) -> Told {
    let wanted = "user=U&session=S&operation=O&object=O, with user or session or both";
    Told::BadRequest(format!("{why}: the query is {wanted}"))
}
