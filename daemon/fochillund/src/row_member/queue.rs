//! Calls that wait to be sent.
use super::call::{ReadCall, MOST_BYTES, MOST_COMMANDS, MOST_WAITING};
use rows::cell::{Call, Identity};
use std::collections::VecDeque;

/// A call with all who asked it.
#[derive(Debug)]
pub(super) struct Waiting<W> {
    call: ReadCall,
    waiters: Vec<W>,
}

/// Calls that go together into one message.
#[derive(Debug)]
pub(super) struct Batch<W> {
    calls: Vec<ReadCall>,
    /// Who waits for each.
    pub(super) waiters: Vec<Vec<W>>,
}

impl<W> Batch<W> {
    /// The commands of the call with an identity, and who waits for it.
    pub(super) fn find(&mut self, identity: &Identity) -> Option<(&[String], &mut Vec<W>)> {
        let is_it = |call: &ReadCall| call.identity.as_ref() == Some(identity);
        let at = self.calls.iter().position(is_it)?;
        Some((&self.calls[at].commands, &mut self.waiters[at]))
    }

    /// What the cell says of each call.
    pub(super) fn told(&self) -> Vec<Call> {
        self.calls.iter().map(ReadCall::told).collect()
    }

    /// Who waits for any of them.
    pub(super) fn into_waiters(self) -> impl Iterator<Item = W> {
        self.waiters.into_iter().flatten()
    }
}

/// The calls that wait, in the order in which they came.
#[derive(Debug)]
pub(super) struct Queue<W> {
    calls: VecDeque<Waiting<W>>,
}

impl<W> Queue<W> {
    pub(super) fn new() -> Queue<W> {
        Queue {
            calls: VecDeque::new(),
        }
    }

    pub(super) fn is_full(&self) -> bool {
        self.calls.len() >= MOST_WAITING
    }

    pub(super) fn len(&self) -> usize {
        self.calls.len()
    }

    /// The commands of the waiting call with an identity, and who waits for it.
    pub(super) fn find(&mut self, identity: &Identity) -> Option<(&[String], &mut Vec<W>)> {
        let found = self
            .calls
            .iter_mut()
            .find(|waiting| waiting.call.identity.as_ref() == Some(identity))?;
        Some((&found.call.commands, &mut found.waiters))
    }

    pub(super) fn put(&mut self, call: ReadCall, waiter: W) {
        let waiters = vec![waiter];
        self.calls.push_back(Waiting { call, waiters });
    }

    /// How many of the first calls go into one message: as many as have room together, and at least one.
    fn together(&self) -> usize {
        let (mut commands, mut bytes) = (0, 0);
        let fits = |waiting: &&Waiting<W>| {
            let is_first = commands == 0;
            commands += waiting.call.commands.len();
            bytes += waiting.call.bytes();
            is_first || (commands <= MOST_COMMANDS && bytes <= MOST_BYTES)
        };
        self.calls.iter().take_while(fits).count()
    }

    /// The JSON array of the commands of the calls that go into the next message.
    pub(super) fn next_commands(&self) -> String {
        let calls = self.calls.iter().take(self.together());
        let texts: Vec<&str> = calls
            .flat_map(|waiting| &waiting.call.commands)
            .map(String::as_str)
            .collect();
        format!("[{}]", texts.join(","))
    }

    /// Takes these calls out.
    pub(super) fn take(&mut self) -> Batch<W> {
        let count = self.together();
        let taken = self.calls.drain(..count);
        let (calls, waiters) = taken.map(|it| (it.call, it.waiters)).unzip();
        Batch { calls, waiters }
    }

    /// Takes all out, to be refused.
    pub(super) fn take_all(&mut self) -> impl Iterator<Item = W> + '_ {
        self.calls.drain(..).flat_map(|waiting| waiting.waiters)
    }
}
