//! Answers of the library, as records have them.
use fochillun::{CheckError, MemberError, Subjects, SubjectsError};
use serde::{Deserialize, Serialize};
use serde_json::Value;

/// What a command is answered.
#[derive(Clone, Debug, PartialEq, Eq, Serialize, Deserialize)]
#[serde(untagged)]
pub enum Answer {
    /// A word alone.
    Word(Word),
    /// Its first precondition that does not hold.
    Denied {
        /// The denial's word.
        denied: String,
        /// Its number.
        number: u32,
    },
    /// What a review lists.
    Names {
        /// In their order.
        names: Vec<String>,
    },
    /// What a review of permissions lists.
    Permissions {
        /// Each an operation and an object, in their order.
        permissions: Vec<(String, String)>,
    },
    /// Who may perform an operation on an object, which no command tells.
    Subjects {
        /// The sessions, in their order.
        sessions: Vec<String>,
        /// The users, in their order.
        users: Vec<String>,
    },
    /// What a review counts.
    Count {
        /// The number.
        count: u64,
    },
    /// Why a command would be denied, or a check is granted or refused, as the library tells it, which no command does.
    #[serde(skip)]
    Why(Value),
}

/// An answer that is a word.
#[derive(Clone, Copy, Debug, PartialEq, Eq, Serialize, Deserialize)]
pub enum Word {
    /// A change was made.
    Done,
    /// A check is granted.
    Granted,
    /// A check is refused.
    Refused,
}

impl Answer {
    /// Of a check.
    ///
    /// # Errors
    /// Where a text of it is no name.
    pub fn of_check(told: Result<bool, CheckError>) -> Result<Answer, MemberError> {
        match told {
            Ok(true) => Ok(Answer::Word(Word::Granted)),
            Ok(false) => Ok(Answer::Word(Word::Refused)),
            Err(CheckError::BadName) => Err(MemberError::BadName),
            Err(denial) => Ok(Answer::Denied {
                denied: format!("{denial:?}"),
                number: denial.number(),
            }),
        }
    }

    /// Of the question who may perform an operation on an object.
    ///
    /// # Errors
    /// Where a text of it is no name, or memory ran out.
    pub fn of_subjects(told: Result<Subjects, SubjectsError>) -> Result<Answer, MemberError> {
        match told {
            Ok(Subjects { sessions, users }) => Ok(Answer::Subjects { sessions, users }),
            Err(SubjectsError::BadName) => Err(MemberError::BadName),
            Err(SubjectsError::NoMemory) => Err(MemberError::NoMemory),
            Err(denial) => Ok(Answer::Denied {
                denied: format!("{denial:?}"),
                number: denial.number(),
            }),
        }
    }

    /// Whether a check is granted: nothing else grants.
    pub fn is_granted(&self) -> bool {
        *self == Answer::Word(Word::Granted)
    }
}

#[cfg(test)]
mod tests {
    use super::{Answer, Word};
    use fochillun::{CheckError, MemberError};

    #[test]
    fn answers_are_as_records_have_them() {
        let texts = [
            r#""Done""#,
            r#""Granted""#,
            r#""Refused""#,
            r#"{"denied":"NoSession","number":10}"#,
            r#"{"names":["ann"]}"#,
            r#"{"permissions":[["read","chart"]]}"#,
            r#"{"count":2}"#,
        ];
        for text in texts {
            let answer: Answer = serde_json::from_str(text).unwrap();
            assert_eq!(serde_json::to_string(&answer).unwrap(), text);
            assert_eq!(answer.is_granted(), text == r#""Granted""#);
        }
        assert!(serde_json::from_str::<Answer>(r#""Yes""#).is_err());
    }

    #[test]
    fn what_is_neither_granted_nor_refused_is_a_denial() {
        let denied = Answer::of_check(Err(CheckError::NoSession)).unwrap();
        let text = r#"{"denied":"NoSession","number":10}"#;
        assert_eq!(serde_json::to_string(&denied).unwrap(), text);
        let told = [Ok(true), Ok(false)].map(|it| Answer::of_check(it).unwrap());
        assert_eq!(
            told,
            [Answer::Word(Word::Granted), Answer::Word(Word::Refused)]
        );
        let bad = Answer::of_check(Err(CheckError::BadName));
        assert_eq!(bad, Err(MemberError::BadName));
    }
}
