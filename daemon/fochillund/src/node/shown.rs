//! What a node shows of its policy, and up to where that is right.
use crate::answer::Answer;
use fochillun::MemberError;
use serde::{Deserialize, Serialize};
use std::fmt;
use std::str::FromStr;

/// A stamp: clock, member, and the place in its message, from 0 on.
#[derive(Clone, Copy, Debug, PartialEq, Eq, PartialOrd, Ord, Deserialize)]
#[serde(from = "StampText")]
pub struct Stamp(pub u64, pub u32, pub u32);

/// Its text, as records have it: without the place where that is 0.
#[derive(Deserialize)]
#[serde(untagged)]
enum StampText {
    First(u64, u32),
    Placed(u64, u32, u32),
}

impl From<StampText> for Stamp {
    fn from(text: StampText) -> Stamp {
        match text {
            StampText::First(clock, member) => Stamp(clock, member, 0),
            StampText::Placed(clock, member, place) => Stamp(clock, member, place),
        }
    }
}

impl Serialize for Stamp {
    fn serialize<S: serde::Serializer>(&self, serializer: S) -> Result<S::Ok, S::Error> {
        match self {
            Stamp(clock, member, 0) => (clock, member).serialize(serializer),
            Stamp(clock, member, place) => (clock, member, place).serialize(serializer),
        }
    }
}

/// Up to where what is shown is right: all commands of the generation up to this stamp, and no others. None before the first one.
#[derive(Clone, Copy, Debug, PartialEq, Eq, PartialOrd, Ord, Serialize, Deserialize)]
#[serde(deny_unknown_fields)]
pub struct ShownAt {
    /// The generation.
    pub generation: u64,
    /// The stamp of the last command.
    pub stamp: Option<Stamp>,
}

/// Its text in a query: the numbers of the generation and the stamp, with dots between.
impl fmt::Display for ShownAt {
    fn fmt(&self, f: &mut fmt::Formatter<'_>) -> fmt::Result {
        write!(f, "{}", self.generation)?;
        match self.stamp {
            None => Ok(()),
            Some(Stamp(clock, member, 0)) => write!(f, ".{clock}.{member}"),
            Some(Stamp(clock, member, place)) => write!(f, ".{clock}.{member}.{place}"),
        }
    }
}

/// A text that is no generation and stamp.
#[derive(Clone, Copy, Debug, PartialEq, Eq)]
pub struct NoStamp;

impl FromStr for ShownAt {
    type Err = NoStamp;

    fn from_str(text: &str) -> Result<ShownAt, NoStamp> {
        let numbers = text.split('.').map(str::parse);
        let numbers: Vec<u64> = numbers.collect::<Result<_, _>>().map_err(|_| NoStamp)?;
        let small = |number: u64| u32::try_from(number).map_err(|_| NoStamp);
        let (generation, stamp) = match numbers[..] {
            [generation] => (generation, None),
            [generation, clock, member] => (generation, Some(Stamp(clock, small(member)?, 0))),
            [generation, clock, member, place] => (
                generation,
                Some(Stamp(clock, small(member)?, small(place)?)),
            ),
            _ => return Err(NoStamp),
        };
        Ok(ShownAt { generation, stamp })
    }
}

/// A check.
#[derive(Clone, Debug, PartialEq, Eq, Serialize, Deserialize)]
pub struct Check {
    /// The session.
    pub session: String,
    /// The operation.
    pub operation: String,
    /// The object.
    pub object: String,
}

/// A question about the policy that is shown, which changes nothing.
#[derive(Clone, Debug, PartialEq, Eq)]
pub enum Query {
    /// Whether a session may perform an operation on an object.
    Check(Check),
    /// What a review is answered: the JSON of its command.
    Review(String),
    /// Who may perform an operation on an object.
    Subjects {
        /// The operation.
        operation: String,
        /// The object.
        object: String,
    },
    /// Why a command would be denied, or a check is granted or refused: the JSON of the command.
    Why(String),
    /// Whether a session is a user's: Done, or the denial that says why it is not.
    Owner {
        /// The user.
        user: String,
        /// The session.
        session: String,
    },
}

/// What questions are told together, by one state of the policy.
#[derive(Clone, Debug, PartialEq, Eq)]
pub struct Shown {
    /// Of each question.
    pub answers: Vec<Result<Answer, MemberError>>,
    /// Up to where that is right.
    pub at: ShownAt,
    /// How many records the history has.
    pub records: u64,
}

#[cfg(test)]
mod tests {
    use super::{ShownAt, Stamp};

    #[test]
    fn stamps_are_as_records_have_them_and_in_their_order() {
        let texts = ["[3,1]", "[3,1,2]", "[3,2]", "[4,1]"];
        let stamps = texts.map(|text| serde_json::from_str::<Stamp>(text).unwrap());
        assert!(stamps.windows(2).all(|two| two[0] < two[1]));
        let told = stamps.map(|stamp| serde_json::to_string(&stamp).unwrap());
        assert_eq!(told, texts);
        let at = |generation, stamp| ShownAt { generation, stamp };
        assert!(at(1, Some(stamps[3])) < at(2, None));
        assert!(at(2, None) < at(2, Some(stamps[0])));
    }

    #[test]
    fn where_something_is_shown_has_a_text_for_queries() {
        for text in ["3", "3.7.1", "3.7.1.2"] {
            let at: ShownAt = text.parse().unwrap();
            assert_eq!(at.to_string(), text);
        }
        let same: ShownAt = "3.7.1.0".parse().unwrap();
        assert_eq!(same.to_string(), "3.7.1");
        for text in ["", "3.7", "a", "3.7.1.2.3", "-1", "1.1.4294967296", "1..2"] {
            assert!(text.parse::<ShownAt>().is_err(), "{text}");
        }
    }
}
