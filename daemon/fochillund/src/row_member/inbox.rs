//! Messages of another member that were read of its row, and not yet taken.
use super::opening::Part;
use crate::message::Head;
use rows::cell::Sent;
use serde_json::value::RawValue;
use std::collections::VecDeque;

/// A message as its cell has it.
#[derive(Debug)]
pub(super) struct Message {
    pub(super) number: u32,
    /// None of a text that has no stamp.
    head: Option<Head>,
    /// What it is of the dump by which the generation begins.
    pub(super) part: Part,
    pub(super) text: Box<RawValue>,
}

impl Message {
    pub(super) fn of(sent: Sent, head: Option<Head>, part: Part) -> Message {
        Message {
            number: super::number_of(sent.number),
            head,
            part,
            text: sent.message,
        }
    }

    /// Its stamp's clock; of a text that has none, one that no clock passes.
    pub(super) fn clock(&self) -> u64 {
        self.head.map_or(u64::MAX, |head| head.clock())
    }

    pub(super) fn has_commands(&self) -> bool {
        self.head.is_some_and(|head| head.commands > 0)
    }

    pub(super) fn is_seal(&self) -> bool {
        self.head.is_some_and(|head| head.is_seal())
    }
}

/// The acknowledgement that a message wants before it is taken.
#[derive(Debug)]
pub(super) struct Wanted {
    pub(super) answer: String,
    /// How many messages the member had taken when this was asked: once it took another, its clock is another too.
    pub(super) asked_at: u64,
}

/// The messages of one other member, in order.
#[derive(Debug, Default)]
pub(super) struct Inbox {
    messages: VecDeque<Message>,
    /// What the first one wants, where that was asked.
    pub(super) wanted: Option<Wanted>,
    /// Whether the row was read to its seal.
    pub(super) is_sealed: bool,
}

impl Inbox {
    pub(super) fn put(&mut self, message: Message) {
        self.is_sealed = message.is_seal();
        self.messages.push_back(message);
    }

    pub(super) fn first(&self) -> Option<&Message> {
        self.messages.front()
    }

    /// The clocks of its messages, but for a seal's.
    pub(super) fn clocks(&self) -> impl Iterator<Item = u64> + '_ {
        let heads = self.messages.iter().filter_map(|message| message.head);
        heads
            .filter(|head| !head.is_seal())
            .map(|head| head.clock())
    }

    pub(super) fn take_first(&mut self) -> Message {
        self.wanted = None;
        self.messages.pop_front().expect("a message was read")
    }

    /// Whether the row has ended, and all of it was taken.
    pub(super) fn is_taken_to_its_end(&self) -> bool {
        self.is_sealed && self.messages.is_empty()
    }
}
