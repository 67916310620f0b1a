//! Whether a subject may do something.
use super::{Asked, Holder, Names, Subject};
use crate::answer::{Answer, Word};
use crate::node::{Check, Query};
use serde::{Deserialize, Serialize};
use serde_json::json;

/// Whether a subject may perform an action on a resource.
#[derive(Clone, Debug, PartialEq, Eq, Serialize, Deserialize)]
#[serde(deny_unknown_fields)]
pub struct Evaluation {
    /// Who.
    pub subject: Subject,
    /// The operation.
    pub action: String,
    /// The object.
    pub resource: String,
}

/// Why a decision is not true.
#[derive(Clone, Debug, PartialEq, Eq, Serialize)]
pub struct Reason {
    /// The denial's word; `Refused` where nothing is wrong and nothing grants; `BadName` of a text that is no name; `UnknownType` of a subject that is
    /// neither a session nor a user.
    pub word: String,
    /// The denial's number.
    #[serde(skip_serializing_if = "Option::is_none")]
    pub number: Option<u32>,
}

impl Reason {
    pub(super) fn word(word: &str) -> Reason {
        Reason {
            word: word.to_owned(),
            number: None,
        }
    }

    /// Of an answer that lists and grants nothing.
    pub(super) fn of(answer: &Answer) -> Reason {
        match answer {
            Answer::Denied { denied, number } => Reason {
                word: denied.clone(),
                number: Some(*number),
            },
            _ => Reason::word("Refused"),
        }
    }
}

/// What an evaluation is told.
#[derive(Clone, Debug, PartialEq, Eq)]
pub struct Decision {
    /// Why it is not true; none where it is.
    pub reason: Option<Reason>,
}

impl Decision {
    /// Whether it is granted.
    pub fn is_granted(&self) -> bool {
        self.reason.is_none()
    }

    fn refused(reason: Reason) -> Decision {
        Decision {
            reason: Some(reason),
        }
    }
}

impl Evaluation {
    /// What the policy is asked.
    ///
    /// # Errors
    /// The decision, where there is nothing to be asked.
    pub fn asked(&self, names: &Names) -> Result<Asked, Decision> {
        let refused = |word| Err(Decision::refused(Reason::word(word)));
        let Some(holder) = self.subject.holder() else {
            return refused("UnknownType");
        };
        let session = self.subject.session.as_deref();
        let texts = [self.subject.id.as_str(), &self.action, &self.resource];
        if !names.are_names(texts.into_iter().chain(session)) {
            return refused("BadName");
        }
        let what = match holder {
            Holder::Session(session) | Holder::SessionOf { session, .. } => Query::Check(Check {
                session: session.to_owned(),
                operation: self.action.clone(),
                object: self.resource.clone(),
            }),
            Holder::User(user) => {
                let object = &self.resource;
                let review =
                    json!({ "name": "UserOperationsOnObject", "user": user, "object": object });
                Query::Review(review.to_string())
            }
        };
        Ok(Asked::of(holder, what))
    }

    /// What an answer to it decides: granted is what a check grants, and of a user's operations the one that is asked for.
    pub fn decision(&self, answer: &Answer) -> Decision {
        let is_granted = match answer {
            Answer::Word(Word::Granted) => true,
            Answer::Names { names } => names.contains(&self.action),
            _ => false,
        };
        match is_granted {
            true => Decision { reason: None },
            false => Decision::refused(Reason::of(answer)),
        }
    }
}

#[cfg(test)]
mod tests {
    use super::{Evaluation, Reason, Subject};
    use crate::answer::{Answer, Word};
    use crate::policy_questions::Names;
    use fochillun::MemberError;

    fn evaluation(kind: &str, session: Option<&str>) -> Evaluation {
        Evaluation {
            subject: Subject {
                kind: kind.to_owned(),
                id: "ann".to_owned(),
                session: session.map(str::to_owned),
            },
            action: "read".to_owned(),
            resource: "chart".to_owned(),
        }
    }

    fn denied(denied: &str, number: u32) -> Answer {
        Answer::Denied {
            denied: denied.to_owned(),
            number,
        }
    }

    #[test]
    fn only_granted_is_true() {
        let asked = evaluation("session", None);
        let names = |names: &[&str]| Answer::Names {
            names: names.iter().map(|name| (*name).to_owned()).collect(),
        };
        assert!(asked.decision(&Answer::Word(Word::Granted)).is_granted());
        assert!(asked.decision(&names(&["admit", "read"])).is_granted());
        let others = [
            Answer::Word(Word::Refused),
            Answer::Word(Word::Done),
            Answer::Count { count: 1 },
            Answer::Permissions {
                permissions: vec![("read".to_owned(), "chart".to_owned())],
            },
            names(&["reads", "READ"]),
            denied("NoSession", 10),
        ];
        for answer in others {
            assert!(!asked.decision(&answer).is_granted(), "{answer:?}");
        }
        let reason = Reason {
            word: "NoSession".to_owned(),
            number: Some(10),
        };
        let told = asked.decision(&denied("NoSession", 10));
        assert_eq!(told.reason, Some(reason));
    }

    #[test]
    fn a_session_that_is_another_users_is_denied_whatever_it_may() {
        let names = Names::new();
        let asked = evaluation("user", Some("s1")).asked(&names).unwrap();
        assert_eq!(asked.queries().len(), 2);
        assert!(!asked.is_told_by_command());
        let granted = Ok(Answer::Word(Word::Granted));
        let told = |owner| asked.answer(&mut [owner, granted.clone()].into_iter());
        assert_eq!(told(Ok(denied("NotOwner", 11))), Ok(denied("NotOwner", 11)));
        assert_eq!(told(Ok(Answer::Word(Word::Done))), granted);
        assert_eq!(told(Err(MemberError::NoMemory)), Err(MemberError::NoMemory));
    }

    #[test]
    fn what_is_no_name_is_not_asked() {
        let names = Names::new();
        let mut spaced = evaluation("user", None);
        spaced.action = "re ad".to_owned();
        let mut empty = evaluation("session", None);
        empty.resource = String::new();
        let mut long = evaluation("session", None);
        long.subject.id = "a".repeat(65);
        let other = evaluation("user", Some("s\u{e9}"));
        for evaluation in [spaced, empty, long, other] {
            let told = evaluation.asked(&names).unwrap_err();
            assert_eq!(told.reason.unwrap().word, "BadName");
        }
        let told = evaluation("role", None).asked(&names).unwrap_err();
        assert_eq!(told.reason.unwrap().word, "UnknownType");
        assert!(evaluation("user", None).asked(&names).is_ok());
    }
}
