//! How a generation begins: its first member tells, as commands, the policy that the last one left, and nobody else sends a command before it has
//! taken the end of that dump.
use crate::message::commands_of;
use rows::cell::DumpPart;

/// What a generation begins with.
#[derive(Clone, Debug, PartialEq, Eq)]
pub struct Dump {
    /// The commands, in order.
    pub commands: Vec<String>,
    /// The generation whose cell of the founding's row has the founding file.
    pub founded_by: u64,
}

/// What the messages of the first member mean for the beginning of a generation.
#[derive(Clone, Copy, Debug, PartialEq, Eq)]
pub(super) enum Part {
    /// It tells nothing of the dump.
    Other,
    /// It is a part of it, and not the last.
    Inner,
    /// The dump ends with it.
    Last,
}

/// How far a generation has begun.
#[derive(Debug)]
pub(super) struct Opening {
    /// What it begins with.
    pub(super) begins: Begins,
    /// How many of its commands stand in the cells that were read or set.
    pub(super) read: usize,
    /// Whether the cell that ends it was read or set.
    pub(super) is_read: bool,
    /// Whether it was taken to its end: from then on calls are sent.
    pub(super) is_open: bool,
    /// How many commands it has, once that is known.
    pub(super) total: usize,
}

impl Opening {
    /// Of a generation that begins with this dump, which the one who founds the first has none of.
    pub(super) fn of(begins: Begins) -> Opening {
        let is_open = begins == Begins::Empty;
        Opening {
            begins,
            read: 0,
            is_read: is_open,
            is_open,
            total: 0,
        }
    }

    /// The dump, where it is known, to be sent or compared.
    pub(super) fn dump(&self) -> Option<&Dump> {
        match &self.begins {
            Begins::With(dump) => Some(dump),
            Begins::Empty | Begins::WithUnknown => None,
        }
    }

    /// Whether the first member's row ended before the dump did: then nobody has sent a command in this generation, nor ever will.
    pub(super) fn is_void_behind_a_seal(&self) -> bool {
        !self.is_read
    }

    /// Reads the first member's next message. None where it is not the dump that has to be there.
    pub(super) fn read(&mut self, message: &str, part: Option<DumpPart>) -> Option<Part> {
        let Some(part) = part else {
            let is_right = self.is_read || commands_of(message).is_empty();
            return is_right.then_some(Part::Other);
        };
        let commands = commands_of(message);
        let to = self.read + commands.len();
        let is_known = |dump: &Dump| {
            part.founded_by == dump.founded_by
                && part.total == dump.commands.len()
                && dump
                    .commands
                    .get(self.read..to)
                    .is_some_and(|it| it == commands)
        };
        let is_next = !self.is_read && part.first == self.read && to <= part.total;
        if !is_next || !self.dump().is_none_or(is_known) {
            return None;
        }
        (self.read, self.total) = (to, part.total);
        self.is_read = to == part.total;
        Some(if self.is_read {
            Part::Last
        } else {
            Part::Inner
        })
    }

    /// A message of the first member, which was read so, is taken.
    pub(super) fn take(&mut self, part: Part) {
        self.is_open |= part == Part::Last;
    }
}

/// What a generation begins with.
#[derive(Clone, Debug, PartialEq, Eq)]
pub enum Begins {
    /// With nothing, as the first one.
    Empty,
    /// With this dump.
    With(Dump),
    /// With a dump that its rows have to its end, and that was compared before.
    WithUnknown,
}
