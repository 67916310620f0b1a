//! What is read of a message's text without the library: its clock, its commands, and whether it is a seal.
use serde::de::IgnoredAny;
use serde::{Deserialize, Serialize};
use serde_json::value::RawValue;

/// The clock of a seal: above that of each other message of a generation. A seal is an acknowledgement by which a row ends, so that each member that
/// has read it waits for nothing more of its sender. Anybody may set it, in the next free cell.
pub const SEAL_CLOCK: u64 = 1 << 52;

/// The greatest clock that a founding may have: far more than a generation has messages below a seal's.
pub const LAST_FOUNDING_CLOCK: u64 = SEAL_CLOCK - (1 << 30);

/// What is looked at of a message, which is read once for all that asks for it.
#[derive(Clone, Copy, Debug, PartialEq, Eq)]
pub(crate) struct Head {
    /// Its stamp: clock and member.
    pub(crate) stamp: (u64, u32),
    /// How many commands it has; none is an acknowledgement, or a seal.
    pub(crate) commands: usize,
}

#[derive(Deserialize)]
struct HeadText {
    stamp: (u64, u32),
    #[serde(default)]
    commands: Vec<IgnoredAny>,
}

impl Head {
    /// That of a message's text; none of one that has no stamp.
    pub(crate) fn of(message: &str) -> Option<Head> {
        let text: HeadText = serde_json::from_str(message).ok()?;
        Some(Head {
            stamp: text.stamp,
            commands: text.commands.len(),
        })
    }

    /// That of a message that the library has made or taken.
    pub(crate) fn of_known(message: &str) -> Head {
        Head::of(message).expect("a message that the library knows has a stamp")
    }

    pub(crate) fn clock(&self) -> u64 {
        self.stamp.0
    }

    pub(crate) fn is_seal(&self) -> bool {
        self.clock() == SEAL_CLOCK
    }
}

/// The seal of a member's row.
pub fn seal_of(member: u32) -> String {
    format!(r#"{{"stamp":[{SEAL_CLOCK},{member}]}}"#)
}

/// Whether a message is a seal.
pub fn is_seal(message: &str) -> bool {
    Head::of(message).is_some_and(|head| head.is_seal())
}

/// A message that has commands, as the library writes it.
#[derive(Deserialize, Serialize)]
#[serde(deny_unknown_fields)]
struct Submitted<'t> {
    caller: u32,
    #[serde(borrow)]
    commands: &'t RawValue,
    serial: u64,
    stamp: (u64, u32),
}

/// A message that the library would send next, with a clock above this one too: whoever has read a message may set its clock above that one's before the
/// library takes it. None where it would be a seal's.
pub(crate) fn later_than(message: String, clock: u64) -> Option<String> {
    let submitted: Submitted<'_> = serde_json::from_str(&message).expect("a message of commands");
    let (own, member) = submitted.stamp;
    if own > clock {
        return Some(message);
    }
    let raised = clock.checked_add(1).filter(|clock| *clock < SEAL_CLOCK)?;
    let stamp = (raised, member);
    let later = Submitted { stamp, ..submitted };
    Some(serde_json::to_string(&later).expect("a message is JSON"))
}

/// The commands of a message's text, each as the library writes it.
#[derive(Deserialize)]
struct Sent<'t> {
    #[serde(borrow, default)]
    commands: Vec<&'t RawValue>,
}

/// The texts of the commands of a message's text; none of a text that is no message.
pub(crate) fn commands_of(message: &str) -> Vec<&str> {
    let sent: Option<Sent<'_>> = serde_json::from_str(message).ok();
    let commands = sent.map_or_else(Vec::new, |sent| sent.commands);
    commands.into_iter().map(RawValue::get).collect()
}

#[cfg(test)]
mod tests {
    use super::{later_than, SEAL_CLOCK};
    use fochillun::Member;

    fn message() -> String {
        let founding =
            b"version = 1\nmembers = 2\noperations = []\nobjects = []\npermissions = []\n";
        let mut member = Member::open(founding, 2).unwrap();
        let commands = r#"[{"name":"AddUser","user":"ann"}]"#;
        member.next_submit_batch(0, 0, commands).unwrap()
    }

    #[test]
    fn a_later_message_differs_by_its_clock() {
        let message = message();
        assert!(message.ends_with(r#""stamp":[1,2]}"#));
        assert_eq!(later_than(message.clone(), 0), Some(message.clone()));
        let later = message.replace(r#""stamp":[1,2]}"#, r#""stamp":[8,2]}"#);
        assert_eq!(later_than(message, 7), Some(later));
    }

    #[test]
    fn no_message_of_commands_has_the_clock_of_a_seal() {
        let message = message();
        assert!(later_than(message.clone(), SEAL_CLOCK - 2).is_some());
        for clock in [SEAL_CLOCK - 1, u64::MAX] {
            assert_eq!(later_than(message.clone(), clock), None);
        }
    }
}
