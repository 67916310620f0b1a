//! A policy of the library's, beside a member: it is taken along by the commands of the history, and answers reviews.
use crate::answer::{Answer, Word};
use crate::node::{Check, Query};
use fochillun::{ApplyError, MemberError, Monitor, OpenError};
use serde_json::{json, Value};

/// What a change is answered.
const DONE: &str = "\"Done\"";

/// A policy.
#[derive(Debug)]
pub(crate) struct Policy {
    monitor: Monitor,
}

impl Policy {
    /// One that a founding file founds.
    pub(crate) fn of(founding: &[u8]) -> Result<Policy, OpenError> {
        Ok(Policy {
            monitor: Monitor::open(founding)?,
        })
    }

    /// Carries a command out, and gives its answer's text.
    pub(crate) fn apply(&mut self, command: &str) -> Result<String, ApplyError> {
        self.monitor.apply(command).map(str::to_owned)
    }

    /// Carries out commands of a dump.
    pub(crate) fn apply_dump<'t>(
        &mut self,
        commands: impl IntoIterator<Item = &'t str>,
    ) -> Result<(), usize> {
        for (number, command) in (1..).zip(commands) {
            match self.apply(command) {
                Ok(answer) if answer == DONE => {}
                _ => return Err(number),
            }
        }
        Ok(())
    }

    /// What a question is told.
    pub(crate) fn query(&mut self, query: &Query) -> Result<Answer, MemberError> {
        match query {
            Query::Check(Check {
                session,
                operation,
                object,
            }) => Answer::of_check(self.monitor.check(session, operation, object)),
            Query::Review(command) => {
                let answer = self.monitor.apply(command).map_err(|why| match why {
                    ApplyError::BadName => MemberError::BadName,
                    _ => MemberError::NoMemory,
                })?;
                Ok(serde_json::from_str(answer).expect("an answer of the library"))
            }
            Query::Subjects { operation, object } => {
                Answer::of_subjects(self.monitor.subjects(operation, object))
            }
            Query::Why(command) => self.why(command).map(Answer::Why),
            Query::Owner { user, session } => self.owner(user, session),
        }
    }

    /// Why a command would be denied, or a check is granted or refused: the object that the library tells.
    pub(crate) fn why(&mut self, command: &str) -> Result<Value, MemberError> {
        let told = self.monitor.explain(command).map_err(|why| match why {
            ApplyError::BadName => MemberError::BadName,
            _ => MemberError::NoMemory,
        })?;
        Ok(serde_json::from_str(&told).expect("a text of the library"))
    }

    /// Whether a session is a user's: the denial by which the user could not end it, or Done.
    fn owner(&mut self, user: &str, session: &str) -> Result<Answer, MemberError> {
        let why = self.why(&ended(user, session))?;
        Ok(match (why["denied"].as_str(), why["number"].as_u64()) {
            (Some(denied), Some(number)) => Answer::Denied {
                denied: denied.to_owned(),
                number: u32::try_from(number).expect("a denial's number"),
            },
            _ => Answer::Word(Word::Done),
        })
    }
}

/// The command by which a user ends a session of its own.
pub(crate) fn ended(user: &str, session: &str) -> String {
    json!({ "name": "DeleteSession", "user": user, "session": session }).to_string()
}

#[cfg(test)]
mod tests {
    use super::Policy;
    use crate::answer::{Answer, Word};
    use crate::node::Query;

    #[test]
    fn a_session_is_its_makers_until_it_is_made_anew() {
        let founding =
            b"version = 1\nmembers = 1\noperations = []\nobjects = []\npermissions = []\n";
        let mut policy = Policy::of(founding).unwrap();
        let user = |user: &str| format!(r#"{{"name":"AddUser","user":"{user}"}}"#);
        let session = |user: &str| {
            format!(r#"{{"name":"CreateSession","user":"{user}","session":"s","roles":[]}}"#)
        };
        let ended = r#"{"name":"DeleteSession","user":"ann","session":"s"}"#;
        let owns = |policy: &mut Policy, user: &str| {
            let (user, session) = (user.to_owned(), "s".to_owned());
            match policy.query(&Query::Owner { user, session }).unwrap() {
                Answer::Word(Word::Done) => "Done".to_owned(),
                Answer::Denied { denied, .. } => denied,
                other => panic!("{other:?}"),
            }
        };
        assert_eq!(owns(&mut policy, "ann"), "NoUser");
        for command in [user("ann"), user("bob"), session("ann")] {
            assert_eq!(policy.apply(&command).unwrap(), "\"Done\"");
        }
        // One that is there already is nobody else's.
        assert_ne!(policy.apply(&session("bob")).unwrap(), "\"Done\"");
        assert_eq!(
            ["ann", "bob"].map(|user| owns(&mut policy, user)),
            ["Done", "NotOwner"]
        );
        policy.apply(ended).unwrap();
        assert_eq!(owns(&mut policy, "ann"), "NoSession");
        policy.apply(&session("bob")).unwrap();
        assert_eq!(
            ["ann", "bob"].map(|user| owns(&mut policy, user)),
            ["NotOwner", "Done"]
        );
    }
}
