//! What became of the calls of this generation: in which message each was sent, and from which record on that was delivered.
use ring::digest::{Context, SHA256};
use rows::cell::{Call, Identity};
use std::collections::{HashMap, VecDeque};

/// Where the commands of a call stand.
#[derive(Clone, Copy, Debug, PartialEq, Eq)]
pub(super) struct Place {
    pub(super) message: u32,
    /// The place in the message of its first command.
    pub(super) first: usize,
    pub(super) commands: usize,
}

/// A message of the member's own that has commands, and was not delivered to its end.
#[derive(Debug)]
struct Undelivered {
    message: u32,
    commands: usize,
}

/// A key for an identity. Two that differ have different ones, as far as anybody can find.
fn key(identity: &Identity) -> u128 {
    let mut digest = Context::new(&SHA256);
    digest.update(&(identity.caller.len() as u64).to_le_bytes());
    digest.update(identity.caller.as_bytes());
    digest.update(identity.id.as_bytes());
    let digest = digest.finish();
    u128::from_le_bytes(digest.as_ref()[..16].try_into().expect("16 of 32 bytes"))
}

/// The calls of the member's row. Of each that has an identity 48 bytes or so are kept for as long as the generation lasts: a row has at most
/// 65,536 messages of at most 64 calls each.
#[derive(Debug)]
pub(super) struct History<W> {
    known: HashMap<u128, Place>,
    undelivered: VecDeque<Undelivered>,
    /// The record of each message's first command, by the message's number, as far as they were delivered.
    records: HashMap<u32, u64>,
    waiting: HashMap<u32, Vec<(Place, W)>>,
}

impl<W> History<W> {
    pub(super) fn new() -> History<W> {
        History {
            known: HashMap::new(),
            undelivered: VecDeque::new(),
            records: HashMap::new(),
            waiting: HashMap::new(),
        }
    }

    /// A message of so many commands, those of these calls or of nobody, was set in the row. Gives the place of each call.
    pub(super) fn sent(&mut self, message: u32, calls: &[Call], commands: usize) -> Vec<Place> {
        let mut first = 0;
        let mut places = Vec::with_capacity(calls.len());
        for call in calls {
            let place = Place {
                message,
                first,
                commands: call.commands,
            };
            if let Some(identity) = &call.identity {
                self.known.insert(key(identity), place);
            }
            places.push(place);
            first += call.commands;
        }
        if commands > 0 {
            let undelivered = Undelivered { message, commands };
            self.undelivered.push_back(undelivered);
        }
        places
    }

    pub(super) fn place_of(&self, identity: &Identity) -> Option<Place> {
        self.known.get(&key(identity)).copied()
    }

    /// The records of a call that was delivered.
    pub(super) fn records_of(&self, place: Place) -> Option<std::ops::Range<u64>> {
        let is_under_way = |first: &Undelivered| first.message == place.message;
        if self.undelivered.front().is_some_and(is_under_way) {
            return None;
        }
        let first = self.records.get(&place.message)? + place.first as u64;
        Some(first..first + place.commands as u64)
    }

    /// Somebody waits until the call at a place is delivered.
    pub(super) fn wait(&mut self, place: Place, waiter: W) {
        let waiting = self.waiting.entry(place.message).or_default();
        waiting.push((place, waiter));
    }

    /// A command of the member's own was delivered, of this place in its message. Gives who waited for that message, where it was its last.
    pub(super) fn delivered(&mut self, place: u32, record: u64) -> Vec<(Place, W)> {
        let Some(first) = self.undelivered.front() else {
            return Vec::new();
        };
        let (message, commands) = (first.message, first.commands);
        if place == 0 {
            self.records.insert(message, record);
        }
        if place as usize + 1 < commands {
            return Vec::new();
        }
        self.undelivered.pop_front();
        self.waiting.remove(&message).unwrap_or_default()
    }

    /// Who waits, and for which call.
    pub(super) fn into_waiting(self) -> Vec<(Place, W)> {
        self.waiting.into_values().flatten().collect()
    }

    /// How many calls are sent and not answered.
    pub(super) fn waits(&self) -> usize {
        self.waiting.values().map(Vec::len).sum()
    }
}
