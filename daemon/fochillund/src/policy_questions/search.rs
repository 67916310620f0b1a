//! Which actions or resources a subject may, and who may.
use super::{Asked, Holder, Names, Reason, Subject};
use crate::answer::Answer;
use crate::node::Query;
use serde::{Deserialize, Serialize};
use serde_json::json;

/// What is sought.
#[derive(Clone, Debug, PartialEq, Eq, Serialize, Deserialize)]
#[serde(rename_all = "lowercase", deny_unknown_fields)]
pub enum Sought {
    /// The operations that a subject may perform on a resource.
    Actions {
        /// The subject.
        subject: Subject,
        /// The resource.
        resource: String,
    },
    /// The resources on which a subject may perform an action.
    Resources {
        /// The subject.
        subject: Subject,
        /// The action.
        action: String,
    },
    /// The sessions, or the users, that may perform an action on a resource.
    Subjects {
        /// Which of them: `session` or `user`.
        #[serde(rename = "type")]
        kind: String,
        /// The action.
        action: String,
        /// The resource.
        resource: String,
    },
}

/// A search.
pub type Search = Sought;

impl Sought {
    /// What the policy is asked.
    ///
    /// # Errors
    /// Why nothing is found, where there is nothing to be asked.
    pub fn asked(&self, names: &Names) -> Result<Asked, Reason> {
        let (subject, other) = match self {
            Sought::Actions { subject, resource } => (subject, resource),
            Sought::Resources { subject, action } => (subject, action),
            Sought::Subjects {
                kind,
                action,
                resource,
            } => return asked_of_all(kind, action, resource, names),
        };
        let Some(holder) = subject.holder() else {
            return Err(Reason::word("UnknownType"));
        };
        let texts = [subject.id.as_str(), other];
        if !names.are_names(texts.into_iter().chain(subject.session.as_deref())) {
            return Err(Reason::word("BadName"));
        }
        let review = match (holder, self) {
            (Holder::Session(session) | Holder::SessionOf { session, .. }, _) => {
                json!({ "name": "SessionPermissions", "session": session })
            }
            (Holder::User(user), Sought::Actions { resource, .. }) => {
                json!({ "name": "UserOperationsOnObject", "user": user, "object": resource })
            }
            (Holder::User(user), _) => json!({ "name": "UserPermissions", "user": user }),
        };
        Ok(Asked::of(holder, Query::Review(review.to_string())))
    }

    /// The names that an answer tells, in their order: of permissions, those of the resource or action that is asked for.
    ///
    /// # Errors
    /// Why there are none, where it is a denial.
    pub fn found(&self, answer: Answer) -> Result<Vec<String>, Reason> {
        match answer {
            Answer::Names { names } => Ok(names),
            Answer::Subjects { sessions, users } => Ok(match self {
                Sought::Subjects { kind, .. } if kind == "user" => users,
                _ => sessions,
            }),
            Answer::Permissions { permissions } => {
                let named = |(operation, object): (String, String)| match self {
                    Sought::Actions { resource, .. } => (object == *resource).then_some(operation),
                    Sought::Resources { action, .. } => (operation == *action).then_some(object),
                    Sought::Subjects { .. } => None,
                };
                let mut found: Vec<String> = permissions.into_iter().filter_map(named).collect();
                found.sort();
                Ok(found)
            }
            other => Err(Reason::of(&other)),
        }
    }
}

/// Who may perform an action on a resource.
fn asked_of_all(kind: &str, action: &str, resource: &str, names: &Names) -> Result<Asked, Reason> {
    if !["session", "user"].contains(&kind) {
        return Err(Reason::word("UnknownType"));
    }
    if !names.are_names([action, resource]) {
        return Err(Reason::word("BadName"));
    }
    Ok(Asked {
        owner: None,
        what: Query::Subjects {
            operation: action.to_owned(),
            object: resource.to_owned(),
        },
    })
}

#[cfg(test)]
mod tests {
    use super::{Sought, Subject};
    use crate::answer::Answer;

    #[test]
    fn of_permissions_those_are_found_that_have_the_very_name() {
        let subject = Subject {
            kind: "session".to_owned(),
            id: "s1".to_owned(),
            session: None,
        };
        let pairs = [("read", "rota"), ("read", "chart"), ("reads", "chart")];
        let pairs = pairs.map(|(operation, object)| (operation.to_owned(), object.to_owned()));
        let answer = Answer::Permissions {
            permissions: pairs.to_vec(),
        };
        let action = "read".to_owned();
        let resources = Sought::Resources {
            subject: subject.clone(),
            action,
        };
        let found = resources.found(answer.clone());
        assert_eq!(found.unwrap(), ["chart", "rota"]);
        let resource = "chart".to_owned();
        let actions = Sought::Actions { subject, resource };
        assert_eq!(actions.found(answer).unwrap(), ["read", "reads"]);
        let denied = Answer::Denied {
            denied: "NoSession".to_owned(),
            number: 10,
        };
        assert_eq!(actions.found(denied).unwrap_err().number, Some(10));
    }
}
