//! Questions in the terms of OpenID AuthZEN, as those of a policy: which check or review tells them, and what its answer means there. What the
//! answer is, the library says.
mod evaluation;
mod names;
mod search;

pub use evaluation::{Decision, Evaluation, Reason};
pub use names::Names;
pub use search::{Search, Sought};

use crate::answer::{Answer, Word};
use crate::node::{Check, Query};
use crate::policy::ended;
use fochillun::MemberError;
use serde::{Deserialize, Serialize};
use serde_json::json;

/// Of whom it is asked.
#[derive(Clone, Debug, PartialEq, Eq, Serialize, Deserialize)]
#[serde(deny_unknown_fields)]
pub struct Subject {
    /// `session`, `user`, or what this policy has not.
    #[serde(rename = "type")]
    pub kind: String,
    /// Its name.
    pub id: String,
    /// The session of a user that is meant.
    #[serde(default, skip_serializing_if = "Option::is_none")]
    pub session: Option<String>,
}

/// Whose permissions are meant.
#[derive(Clone, Copy, Debug, PartialEq, Eq)]
enum Holder<'s> {
    /// What a session has by its active roles.
    Session(&'s str),
    /// The same of a session, which has to be this user's.
    SessionOf { user: &'s str, session: &'s str },
    /// What a user has by the roles that it is authorized for.
    User(&'s str),
}

impl Subject {
    /// None of a kind that the policy has not.
    fn holder(&self) -> Option<Holder<'_>> {
        match (self.kind.as_str(), self.session.as_deref()) {
            ("session", _) => Some(Holder::Session(&self.id)),
            ("user", None) => Some(Holder::User(&self.id)),
            ("user", Some(session)) => Some(Holder::SessionOf {
                user: &self.id,
                session,
            }),
            _ => None,
        }
    }
}

/// A question as the policy is asked it.
#[derive(Clone, Debug, PartialEq, Eq)]
pub struct Asked {
    /// Whose the session has to be of which it is asked.
    owner: Option<(String, String)>,
    what: Query,
}

impl Asked {
    fn of(holder: Holder<'_>, what: Query) -> Asked {
        let owner = match holder {
            Holder::SessionOf { user, session } => Some((user.to_owned(), session.to_owned())),
            _ => None,
        };
        Asked { owner, what }
    }

    /// What the policy is asked, all of it of one state.
    pub fn queries(&self) -> Vec<Query> {
        let owner = self.owner.as_ref().map(|(user, session)| Query::Owner {
            user: user.clone(),
            session: session.clone(),
        });
        owner.into_iter().chain([self.what.clone()]).collect()
    }

    /// The answer, of these to the queries: that a session is another's comes before what it may.
    ///
    /// # Errors
    /// The first query's that has none.
    pub fn answer(
        &self,
        told: &mut impl Iterator<Item = Result<Answer, MemberError>>,
    ) -> Result<Answer, MemberError> {
        let mut next = || told.next().expect("each query is answered");
        let owner = self.owner.as_ref().map(|_| next());
        let answer = next();
        match owner.transpose()? {
            None | Some(Answer::Word(Word::Done)) => answer,
            Some(denial) => Ok(denial),
        }
    }

    /// Why it is denied: what the policy is asked, in the order of what comes before the other.
    pub fn reasons(&self) -> Vec<Query> {
        let owner = self.owner.as_ref();
        let owner = owner.map(|(user, session)| ended(user, session));
        let commands = owner.into_iter().chain([self.command()]);
        commands.map(Query::Why).collect()
    }

    /// The command that asks the same in the members' order.
    pub fn command(&self) -> String {
        match &self.what {
            Query::Check(check) => check_access(check),
            Query::Review(command) => command.clone(),
            // No command tells it: a review of nothing much has the place in the order.
            Query::Subjects { .. } => json!({ "name": "SsdRoleSets" }).to_string(),
            Query::Why(_) | Query::Owner { .. } => {
                unreachable!("no question is of an owner, or of a reason, alone")
            }
        }
    }

    /// Whether that command's own answer is the answer: not where it has to be told whose a session is, or who may do something, which no command
    /// does.
    pub fn is_told_by_command(&self) -> bool {
        self.owner.is_none() && !matches!(self.what, Query::Subjects { .. })
    }
}

fn check_access(check: &Check) -> String {
    let Check {
        session,
        operation,
        object,
    } = check;
    json!({ "name": "CheckAccess", "session": session, "operation": operation, "object": object })
        .to_string()
}
