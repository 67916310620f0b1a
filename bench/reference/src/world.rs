//! A group of members, who share nothing but the messages that they take from each other.

mod member;

use crate::answer::Answer;
use crate::command::Command;
use crate::event::Event;
use crate::founding::Founding;
use crate::limits;
use crate::policy::Policy;
pub use member::{Alone, Delivered};
use member::{Limits, Member};
use std::rc::Rc;

/// A clock, the number of the member that it is of, and a command's place in its message. The smaller clock comes first, of equal
/// clocks the smaller number, and then the smaller place. A message's own stamp has the place 0.
#[derive(Clone, Copy, Debug, PartialEq, Eq, PartialOrd, Ord)]
pub struct Stamp {
    pub clock: u64,
    pub member: u32,
    pub place: u32,
}

pub enum Outcome {
    Submitted(Stamp),
    /// The stamp of the acknowledgement: an acknowledgement gets none.
    Received(Option<Stamp>),
    Delivered(Option<Record>),
}

/// A delivered command: who sent it, when, and what it is answered.
pub struct Record {
    pub stamp: Stamp,
    pub caller: u32,
    pub serial: u32,
    pub answer: Answer,
}

#[derive(Clone, Copy, Debug, PartialEq, Eq)]
pub enum EventRefusal {
    UnknownMember,
    BadBatch,
    FromSelf,
    NotSent,
    Repeat { expected: u32 },
    Gap { expected: u32 },
    StampNotRising,
    ClockFull,
    SentFull,
    BadSerial { next: u32 },
    MessageTooLong,
}

/// What a member sends to all others. Without a batch it is an acknowledgement.
#[derive(Clone)]
pub struct Message {
    pub stamp: Stamp,
    pub batch: Option<Rc<Batch>>,
}

/// Commands of one caller as they were submitted. The serial is that of the first, and each other one has the next.
pub struct Batch {
    pub caller: u32,
    pub serial: u32,
    pub commands: Vec<Command>,
}

impl Batch {
    pub fn of_one(caller: u32, serial: u32, command: Command) -> Batch {
        Batch { caller, serial, commands: vec![command] }
    }

    /// Whether it has as many commands as a message may have, and a serial for each of them.
    fn is_good(&self) -> bool {
        let Some(last) = self.commands.len().checked_sub(1).filter(|last| *last < limits::BATCH) else {
            return false;
        };
        self.serial.checked_add(last as u32).is_some()
    }
}

pub struct World {
    /// In order of number, from 1 on.
    members: Vec<Member>,
}

impl World {
    pub fn new(founding: Founding) -> World {
        let vocabulary = Rc::new(founding.vocabulary);
        let limits = Limits { members: founding.members, sent: founding.sent_limit };
        let policy = || Policy::new(Rc::clone(&vocabulary), founding.hierarchy);
        let member = |number| Member::new(number, founding.clock, limits, policy());
        World { members: (1..=founding.members).map(member).collect() }
    }

    // Not inlined, so that bench/shares tells it apart.
    #[inline(never)]
    pub fn step(&mut self, event: Event) -> Result<Outcome, EventRefusal> {
        match event {
            Event::Submit { at, caller, serial, command } => {
                self.submit(at, Batch::of_one(caller, serial, command)).map(Outcome::Submitted)
            }
            Event::Batch { at, caller, serial, commands } => {
                self.submit(at, Batch { caller, serial, commands }).map(Outcome::Submitted)
            }
            Event::Receive { at, from, number } => self.receive(at, from, number).map(Outcome::Received),
            Event::Deliver { at } => {
                let at = self.place(at)?;
                Ok(Outcome::Delivered(self.members[at].deliver()))
            }
        }
    }

    /// The answer of one member to a caller's next command: it is submitted, and then each member takes all messages and delivers
    /// all that it can. Each member has to take each message, so no clock is near its end.
    pub fn answer(&mut self, at: u32, serial: u32, command: Command) -> Result<Answer, EventRefusal> {
        let stamp = self.submit(at, Batch::of_one(0, serial, command))?;
        let mut answer = None;
        let mut moves = true;
        while moves {
            moves = false;
            for taker in 1..=self.members.len() as u32 {
                moves |= self.take_all(taker)?;
                while let Some(record) = self.members[taker as usize - 1].deliver() {
                    moves = true;
                    if taker == at && record.stamp == stamp {
                        answer = Some(record.answer);
                    }
                }
            }
        }
        answer.ok_or(EventRefusal::NotSent)
    }

    /// One member takes all that the others have sent. It tells whether there was anything.
    fn take_all(&mut self, at: u32) -> Result<bool, EventRefusal> {
        let mut moves = false;
        for from in (1..=self.members.len() as u32).filter(|from| *from != at) {
            loop {
                let number = self.members[at as usize - 1].taken_of(from) + 1;
                match self.receive(at, from, number) {
                    Err(EventRefusal::NotSent) => break,
                    taken => taken?,
                };
                moves = true;
            }
        }
        Ok(moves)
    }

    fn submit(&mut self, at: u32, batch: Batch) -> Result<Stamp, EventRefusal> {
        let at = self.place(at)?;
        if batch.is_good() { self.members[at].submit(batch) } else { Err(EventRefusal::BadBatch) }
    }

    fn receive(&mut self, at: u32, from: u32, number: u32) -> Result<Option<Stamp>, EventRefusal> {
        let (at, sender) = (self.place(at)?, self.place(from)?);
        if at == sender {
            return Err(EventRefusal::FromSelf);
        }
        let message = self.members[sender].sent_message(number).ok_or(EventRefusal::NotSent)?.clone();
        self.members[at].receive(sender, number, message)
    }

    /// Where the member of this number stands.
    fn place(&self, number: u32) -> Result<usize, EventRefusal> {
        let place = (number as usize).checked_sub(1).filter(|place| *place < self.members.len());
        place.ok_or(EventRefusal::UnknownMember)
    }
}
