//! One member: its clock, what it sent and has taken of the others, the commands that it holds, and its policy.

mod alone;

use super::{Batch, EventRefusal, Message, Record, Stamp};
use crate::limits;
use crate::policy::Policy;
use std::cmp::Ordering;
use std::collections::{BTreeMap, HashMap};
use std::rc::Rc;

pub use alone::{Alone, Delivered};

pub struct Member {
    number: u32,
    clock: u64,
    sent_limit: u32,
    /// Message 1 first. Each goes to all others, so a message has one number whoever takes it.
    sent: Vec<Message>,
    /// What was taken of each member, in order of number. Nothing is taken of the member itself.
    links: Vec<Link>,
    /// Of those who submit here.
    next_serials: HashMap<u32, u32>,
    /// Commands that are known and not delivered, its own ones among them.
    /// A stamp's place tells which command of the batch it is of.
    held: BTreeMap<Stamp, Rc<Batch>>,
    policy: Policy,
}

/// What was taken of one sender.
#[derive(Clone, Copy, Default)]
struct Link {
    taken: u32,
    latest: Option<Stamp>,
}

/// What the founding fixes for each member.
#[derive(Clone, Copy)]
pub struct Limits {
    pub members: u32,
    pub sent: u32,
}

impl Member {
    pub fn new(number: u32, clock: u64, limits: Limits, policy: Policy) -> Member {
        Member {
            number,
            clock,
            sent_limit: limits.sent,
            sent: Vec::new(),
            links: vec![Link::default(); limits.members as usize],
            next_serials: HashMap::new(),
            held: BTreeMap::new(),
            policy,
        }
    }

    pub fn sent_message(&self, number: u32) -> Option<&Message> {
        self.sent.get((number as usize).checked_sub(1)?)
    }

    /// How many messages of another member it has taken.
    pub fn taken_of(&self, from: u32) -> u32 {
        self.links[from as usize - 1].taken
    }

    /// Sends a batch that is submitted here, and holds its commands. It is one message, and one step of the clock.
    pub fn submit(&mut self, batch: Batch) -> Result<Stamp, EventRefusal> {
        self.require_clock(self.clock + 1)?;
        self.require_room()?;
        let next = self.next_serials.entry(batch.caller).or_default();
        if batch.serial != *next {
            return Err(EventRefusal::BadSerial { next: *next });
        }
        *next += batch.commands.len() as u32;
        self.clock += 1;
        let stamp = self.stamp();
        let batch = Rc::new(batch);
        self.hold(stamp, &batch);
        self.sent.push(Message { stamp, batch: Some(batch) });
        Ok(stamp)
    }

    /// Holds each command of a message with this stamp.
    fn hold(&mut self, stamp: Stamp, batch: &Rc<Batch>) {
        let stamps = (0..batch.commands.len() as u32).map(|place| Stamp { place, ..stamp });
        self.held.extend(stamps.map(|stamp| (stamp, Rc::clone(batch))));
    }

    /// Takes a message, which has to be the sender's next one. Its commands are held, and acknowledged together where nothing that
    /// was sent from here comes after them.
    pub fn receive(&mut self, sender: usize, number: u32, message: Message) -> Result<Option<Stamp>, EventRefusal> {
        require_turn(number, self.links[sender].taken + 1)?;
        let moved = self.moved_by(&message);
        let acknowledges = self.must_acknowledge(&message);
        self.require_room_to_take(moved, acknowledges)?;
        if !acknowledges {
            self.take(sender, moved, message);
            return Ok(None);
        }
        // The acknowledgement is one more step of the clock.
        self.take(sender, moved + 1, message);
        let stamp = self.stamp();
        self.sent.push(Message { stamp, batch: None });
        Ok(Some(stamp))
    }

    /// The clock above its own and the message's.
    fn moved_by(&self, message: &Message) -> u64 {
        self.clock.max(message.stamp.clock).saturating_add(1)
    }

    /// Whether a message has commands, and nothing was sent from here that comes after them.
    fn must_acknowledge(&self, message: &Message) -> bool {
        // What is sent here has greater and greater stamps, so the last one tells.
        message.batch.is_some() && self.last_sent().is_none_or(|last| last < message.stamp)
    }

    fn last_sent(&self) -> Option<Stamp> {
        self.sent.last().map(|last| last.stamp)
    }

    fn require_room_to_take(&self, moved: u64, acknowledges: bool) -> Result<(), EventRefusal> {
        if !acknowledges {
            return self.require_clock(moved);
        }
        self.require_clock(moved.saturating_add(1))?;
        self.require_room()
    }

    fn take(&mut self, sender: usize, clock: u64, message: Message) {
        self.clock = clock;
        let link = &mut self.links[sender];
        link.taken += 1;
        link.latest = Some(message.stamp);
        if let Some(batch) = message.batch {
            self.hold(message.stamp, &batch);
        }
    }

    /// Delivers the least held command, if nobody can come before it any more.
    pub fn deliver(&mut self) -> Option<Record> {
        let least = self.held.first_entry()?;
        let stamp = *least.key();
        if awaited(self.number, &self.links, stamp).next().is_some() {
            return None;
        }
        let batch = least.remove();
        let answer = self.policy.apply(&batch.commands[stamp.place as usize]);
        Some(Record { stamp, caller: batch.caller, serial: batch.serial + stamp.place, answer })
    }

    fn stamp(&self) -> Stamp {
        Stamp { clock: self.clock, member: self.number, place: 0 }
    }

    fn require_clock(&self, clock: u64) -> Result<(), EventRefusal> {
        if clock <= limits::CLOCK { Ok(()) } else { Err(EventRefusal::ClockFull) }
    }

    fn require_room(&self) -> Result<(), EventRefusal> {
        if self.sent.len() < self.sent_limit as usize { Ok(()) } else { Err(EventRefusal::SentFull) }
    }
}

/// The members that a command waits for. Its sender and the member itself send nothing smaller from now on; of each other one a
/// greater stamp has to have come.
fn awaited(me: u32, links: &[Link], stamp: Stamp) -> impl Iterator<Item = u32> {
    let others = (1..).zip(links).filter(move |(number, _)| *number != me && *number != stamp.member);
    others.filter(move |(_, link)| link.latest.is_none_or(|latest| latest <= stamp)).map(|(number, _)| number)
}

fn require_turn(number: u32, expected: u32) -> Result<(), EventRefusal> {
    match number.cmp(&expected) {
        Ordering::Less => Err(EventRefusal::Repeat { expected }),
        Ordering::Equal => Ok(()),
        Ordering::Greater => Err(EventRefusal::Gap { expected }),
    }
}
