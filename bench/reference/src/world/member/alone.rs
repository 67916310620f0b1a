//! One member by itself. Whoever runs it brings it the messages of the others, of which it knows nothing else, and those of its own
//! row: what it sent before it was lost, or what was set there to be sent.

use super::super::Batch;
use super::{EventRefusal, Limits, Link, Member, Message, Record, Stamp, awaited, require_turn};
use crate::answer::Answer;
use crate::command::Command;
use crate::founding::Founding;
use crate::policy::Policy;
use std::collections::HashMap;
use std::rc::Rc;

pub struct Alone {
    member: Member,
    /// Of the callers of each other member: how many of their commands are known.
    others_serials: HashMap<(u32, u32), u32>,
    history: Vec<Delivered>,
}

/// A command that was delivered, as one of its batch.
pub struct Delivered {
    record: Record,
    batch: Rc<Batch>,
}

impl Delivered {
    pub fn answer(&self) -> &Answer {
        &self.record.answer
    }

    pub fn stamp(&self) -> Stamp {
        self.record.stamp
    }

    pub fn caller(&self) -> u32 {
        self.record.caller
    }

    pub fn serial(&self) -> u32 {
        self.record.serial
    }

    pub fn command(&self) -> &Command {
        &self.batch.commands[self.record.stamp.place as usize]
    }
}

impl Alone {
    /// The member of this number, where the founding has one.
    pub fn new(founding: Founding, number: u32) -> Option<Alone> {
        let limits = Limits { members: founding.members, sent: founding.sent_limit };
        let policy = Policy::new(Rc::new(founding.vocabulary), founding.hierarchy);
        let member = Member::new(number, founding.clock, limits, policy);
        let is_there = (1..=founding.members).contains(&number);
        is_there.then(|| Alone { member, others_serials: HashMap::new(), history: Vec::new() })
    }

    /// The message by which a batch would be sent.
    pub fn message_of(&self, batch: Batch) -> Result<Message, EventRefusal> {
        require_good(&batch)?;
        let clock = self.member.clock + 1;
        self.member.require_clock(clock)?;
        self.member.require_room()?;
        self.require_serial(self.member.number, &batch)?;
        Ok(Message { stamp: Stamp { clock, member: self.member.number, place: 0 }, batch: Some(Rc::new(batch)) })
    }

    /// Sends a message that its own row takes next, and gives its number.
    pub fn send(&mut self, message: Message) -> u32 {
        let member = &mut self.member;
        member.clock = member.clock.max(message.stamp.clock);
        if let Some(batch) = &message.batch {
            *member.next_serials.entry(batch.caller).or_default() += batch.commands.len() as u32;
            member.hold(message.stamp, batch);
        }
        member.sent.push(message);
        member.sent.len() as u32
    }

    /// Takes a message of its own row, and gives its number.
    pub fn take_own(&mut self, number: u32, message: Message) -> Result<u32, EventRefusal> {
        let member = &self.member;
        require_turn(number, member.sent.len() as u32 + 1)?;
        require_rising(member.number, member.last_sent(), message.stamp)?;
        if let Some(batch) = &message.batch {
            require_good(batch)?;
        }
        member.require_clock(message.stamp.clock)?;
        member.require_room()?;
        if let Some(batch) = &message.batch {
            self.require_serial(member.number, batch)?;
        }
        Ok(self.send(message))
    }

    /// Takes a message of another member, and gives the number of the acknowledgement that was sent.
    pub fn receive(&mut self, from: u32, number: u32, message: Message) -> Result<Option<u32>, EventRefusal> {
        self.require_receivable(from, number, &message)?;
        if let Some(batch) = &message.batch {
            *self.others_serials.entry((from, batch.caller)).or_default() += batch.commands.len() as u32;
        }
        let acknowledged = self.member.receive(from as usize - 1, number, message)?;
        Ok(acknowledged.map(|_| self.member.sent.len() as u32))
    }

    /// The acknowledgement that a message of another member wants before it is taken. After it the message wants none, and moves the
    /// clock no further.
    pub fn answer_to(&self, from: u32, number: u32, message: &Message) -> Result<Option<Message>, EventRefusal> {
        self.require_receivable(from, number, message)?;
        let stamp = Stamp { clock: self.member.moved_by(message), member: self.member.number, place: 0 };
        Ok(self.member.must_acknowledge(message).then_some(Message { stamp, batch: None }))
    }

    /// Delivers what is due, and gives its number and its record.
    pub fn deliver(&mut self) -> Option<(u32, &Delivered)> {
        let batch = Rc::clone(self.member.held.first_key_value()?.1);
        let record = self.member.deliver()?;
        self.history.push(Delivered { record, batch });
        Some((self.history.len() as u32, self.history.last()?))
    }

    pub fn sent_message(&self, number: u32) -> Option<&Message> {
        self.member.sent_message(number)
    }

    pub fn delivered(&self, number: u32) -> Option<&Delivered> {
        self.history.get((number as usize).checked_sub(1)?)
    }

    /// The stamp of the least command that is held, and a bit for each member that it waits for: 1 for member 1, 2 for member 2, 4 for
    /// member 3 and so on.
    pub fn waits(&self) -> Option<(Stamp, u32)> {
        let (stamp, _) = self.member.held.first_key_value()?;
        let bits = awaited(self.member.number, &self.member.links, *stamp).map(|number| 1 << (number - 1));
        Some((*stamp, bits.sum()))
    }

    /// The commands that make its policy.
    pub fn dump(&self) -> Vec<Command> {
        self.member.policy.dump()
    }

    /// How many messages of this member were taken: none of itself, or of a stranger.
    pub fn read(&self, from: u32) -> u32 {
        self.link(from).map_or(0, |link| link.taken)
    }

    /// The serial of this caller's next command here.
    pub fn next_serial(&self, caller: u32) -> u32 {
        self.member.next_serials.get(&caller).copied().unwrap_or_default()
    }

    /// What its policy answers to a check, which changes nothing.
    pub fn check(&mut self, check: &Command) -> Answer {
        self.member.policy.apply(check)
    }

    pub fn records(&self) -> usize {
        self.history.len()
    }

    fn require_receivable(&self, from: u32, number: u32, message: &Message) -> Result<(), EventRefusal> {
        let link = self.link(from).ok_or(EventRefusal::UnknownMember)?;
        if from == self.member.number {
            return Err(EventRefusal::FromSelf);
        }
        require_turn(number, link.taken + 1)?;
        require_rising(from, link.latest, message.stamp)?;
        if let Some(batch) = &message.batch {
            require_good(batch)?;
        }
        self.member.require_room_to_take(self.member.moved_by(message), self.member.must_acknowledge(message))?;
        match &message.batch {
            Some(batch) => self.require_serial(from, batch),
            None => Ok(()),
        }
    }

    fn link(&self, from: u32) -> Option<&Link> {
        self.member.links.get((from as usize).checked_sub(1)?)
    }

    /// Whether a batch of a member begins with the number of its caller's commands that are known.
    fn require_serial(&self, member: u32, batch: &Batch) -> Result<(), EventRefusal> {
        let next = if member == self.member.number {
            self.next_serial(batch.caller)
        } else {
            self.others_serials.get(&(member, batch.caller)).copied().unwrap_or_default()
        };
        if batch.serial == next { Ok(()) } else { Err(EventRefusal::BadSerial { next }) }
    }
}

fn require_good(batch: &Batch) -> Result<(), EventRefusal> {
    if batch.is_good() { Ok(()) } else { Err(EventRefusal::BadBatch) }
}

/// Whether a stamp is a member's own, and comes after the last one of its messages.
fn require_rising(member: u32, last: Option<Stamp>, stamp: Stamp) -> Result<(), EventRefusal> {
    let rises = stamp.member == member && last.is_none_or(|last| last < stamp);
    if rises { Ok(()) } else { Err(EventRefusal::StampNotRising) }
}
