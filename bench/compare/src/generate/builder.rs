//! Builds a schedule line by line.

use crate::random::Random;
use crate::tree::{self, Tree};
use std::collections::HashMap;

/// Keeps each caller's next serial, so that submits come in turn.
pub struct Builder {
    pub schedule: Vec<u8>,
    serials: HashMap<u32, u32>,
}

const CALLERS: [u32; 4] = [0, 1, 7, u32::MAX];

impl Builder {
    pub fn new() -> Builder {
        Builder { schedule: Vec::new(), serials: HashMap::new() }
    }

    pub fn line(&mut self, line: impl AsRef<[u8]>) {
        self.schedule.extend_from_slice(line.as_ref());
        self.schedule.push(b'\n');
    }

    /// The next submit of a caller, which is then counted as sent.
    pub fn next_submit(&mut self, caller: u32, command: Tree) -> Tree {
        let serial = self.serials.entry(caller).or_default();
        let event = submit(1, caller, *serial, command);
        *serial += 1;
        event
    }

    /// The next batch of a caller, whose commands are then counted as sent.
    pub fn next_batch(&mut self, caller: u32, commands: Vec<Tree>) -> Tree {
        let serial = self.serials.entry(caller).or_default();
        let first = *serial;
        *serial += commands.len() as u32;
        batch(1, caller, first, commands)
    }

    pub fn any_caller(random: &mut Random) -> u32 {
        if random.chance(70) { 0 } else { random.pick(&CALLERS) }
    }

    pub fn deliver(&mut self) {
        self.line(deliver(1).compact());
    }

    /// A command that is submitted and delivered at once.
    pub fn command(&mut self, name: &str, fields: &[(&str, Tree)]) {
        let event = self.next_submit(0, command(name, fields));
        self.line(event.compact());
        self.deliver();
    }
}

pub fn command(name: &str, fields: &[(&str, Tree)]) -> Tree {
    let mut entries = vec![("name", tree::text(name))];
    entries.extend(fields.iter().cloned());
    tree::object(&entries)
}

pub fn submit(at: u32, caller: u32, serial: u32, command: Tree) -> Tree {
    tree::object(&[
        ("do", tree::text("submit")),
        ("at", tree::number(at)),
        ("caller", tree::number(caller)),
        ("serial", tree::number(serial)),
        ("command", command),
    ])
}

pub fn batch(at: u32, caller: u32, serial: u32, commands: Vec<Tree>) -> Tree {
    tree::object(&[
        ("do", tree::text("batch")),
        ("at", tree::number(at)),
        ("caller", tree::number(caller)),
        ("serial", tree::number(serial)),
        ("commands", Tree::List(commands)),
    ])
}

/// How many commands a message may have.
pub const MOST_COMMANDS: usize = 64;

/// How many commands a batch has that is taken: few most often, and now and then as many as there may be.
pub fn any_count(random: &mut Random) -> usize {
    match random.below(40) {
        0 => MOST_COMMANDS,
        1 => random.between(1, MOST_COMMANDS),
        _ => random.pick(&[1, 2, 2, 2, 3, 3, 4, 6]),
    }
}

/// A serial and a number of commands that make a bad batch, where this serial is the next one.
pub fn bad_batch(random: &mut Random, next: u32) -> (u32, usize) {
    const LAST: u32 = u32::MAX;
    random.pick(&[
        (next, 0),
        (next, MOST_COMMANDS + 1),
        (next, MOST_COMMANDS + 2),
        (LAST, 0),
        (LAST, 2),
        (LAST - 62, MOST_COMMANDS),
        (LAST, MOST_COMMANDS + 1),
    ])
}

pub fn receive(at: u32, from: u32, number: u32) -> Tree {
    let numbers = [("at", tree::number(at)), ("from", tree::number(from)), ("number", tree::number(number))];
    tree::object(&[&[("do", tree::text("receive"))], &numbers[..]].concat())
}

pub fn deliver(at: u32) -> Tree {
    tree::object(&[("do", tree::text("deliver")), ("at", tree::number(at))])
}
