//! A rough model of a group, by which schedules of groups are made: who can take what, and who has something to deliver.
//!
//! Nothing is compared with it. Where it were wrong, fewer events of a schedule would be taken than were meant to be.

use std::collections::{BTreeSet, HashMap};

const LAST_CLOCK: u64 = 9_007_199_254_740_991;

/// A clock, a member's number, and a command's place in its message.
type Stamp = (u64, u32, u32);

pub struct Model {
    pub members: u32,
    sent_limit: usize,
    modelled: Vec<Member>,
}

#[derive(Clone)]
struct Member {
    clock: u64,
    /// Stamps of messages, and how many commands they have: an acknowledgement has none.
    sent: Vec<(Stamp, u32)>,
    taken: Vec<usize>,
    held: BTreeSet<Stamp>,
    serials: HashMap<u32, u32>,
}

impl Member {
    /// Whether a message is acknowledged: one with commands is where nothing later was sent.
    fn must_acknowledge(&self, stamp: Stamp, commands: u32) -> bool {
        commands > 0 && self.sent.last().is_none_or(|(last, _)| *last < stamp)
    }

    fn hold(&mut self, (clock, member, _): Stamp, commands: u32) {
        self.held.extend((0..commands).map(|place| (clock, member, place)));
    }
}

impl Model {
    pub fn new(members: u32, clock: u64, sent_limit: u32) -> Model {
        let member = Member {
            clock,
            sent: Vec::new(),
            taken: vec![0; members as usize],
            held: BTreeSet::new(),
            serials: HashMap::new(),
        };
        Model { members, sent_limit: sent_limit as usize, modelled: vec![member; members as usize] }
    }

    fn member(&self, number: u32) -> &Member {
        &self.modelled[number as usize - 1]
    }

    fn member_mut(&mut self, number: u32) -> &mut Member {
        &mut self.modelled[number as usize - 1]
    }

    /// How many messages a member has sent.
    pub fn sent(&self, number: u32) -> u32 {
        self.member(number).sent.len() as u32
    }

    /// How many messages a member has taken of another.
    pub fn taken(&self, at: u32, from: u32) -> u32 {
        self.member(at).taken[from as usize - 1] as u32
    }

    pub fn next_serial(&self, at: u32, caller: u32) -> u32 {
        self.member(at).serials.get(&caller).copied().unwrap_or(0)
    }

    pub fn can_submit(&self, at: u32) -> bool {
        let member = self.member(at);
        member.clock < LAST_CLOCK && member.sent.len() < self.sent_limit
    }

    /// Counts a submit in turn, or a batch of so many commands, if there is room for it.
    pub fn submit(&mut self, at: u32, caller: u32, commands: u32) {
        if self.can_submit(at) {
            let member = self.member_mut(at);
            member.clock += 1;
            let stamp = (member.clock, at, 0);
            member.sent.push((stamp, commands));
            member.hold(stamp, commands);
            *member.serials.entry(caller).or_default() += commands;
        }
    }

    /// The pairs of a receiver and a sender of whom something is not taken, the clock and the room permitting.
    pub fn open_pairs(&self) -> Vec<(u32, u32)> {
        let pairs = (1..=self.members).flat_map(|at| (1..=self.members).map(move |from| (at, from)));
        pairs.filter(|(at, from)| at != from && self.can_receive(*at, *from)).collect()
    }

    /// The senders of whom a message waits at a member that has no room for it.
    pub fn waiting(&self, at: u32) -> Vec<u32> {
        let is_waiting = |from: &u32| *from != at && self.taken(at, *from) < self.sent(*from);
        (1..=self.members).filter(|from| is_waiting(from) && !self.can_receive(at, *from)).collect()
    }

    fn can_receive(&self, at: u32, from: u32) -> bool {
        let member = self.member(at);
        let next = self.member(from).sent.get(self.taken(at, from) as usize);
        next.is_some_and(|(stamp, commands)| {
            let is_due = member.must_acknowledge(*stamp, *commands);
            let clock = member.clock.max(stamp.0) + 1 + u64::from(is_due);
            clock <= LAST_CLOCK && (!is_due || member.sent.len() < self.sent_limit)
        })
    }

    /// Takes the next message of a pair that is open, and gives its number.
    pub fn receive(&mut self, at: u32, from: u32) -> u32 {
        let place = self.taken(at, from) as usize;
        let (stamp, commands) = self.member(from).sent[place];
        let member = self.member_mut(at);
        member.taken[from as usize - 1] += 1;
        let is_due = member.must_acknowledge(stamp, commands);
        member.clock = member.clock.max(stamp.0) + 1;
        if is_due {
            member.clock += 1;
            member.sent.push(((member.clock, at, 0), 0));
        }
        member.hold(stamp, commands);
        place as u32 + 1
    }

    /// Whether something was delivered.
    pub fn deliver(&mut self, at: u32) -> bool {
        let Some(stamp) = self.member(at).held.first().copied() else {
            return false;
        };
        let has_passed = |from: u32| {
            let latest = (self.taken(at, from) as usize).checked_sub(1);
            from == at || from == stamp.1 || latest.is_some_and(|latest| self.member(from).sent[latest].0 > stamp)
        };
        (1..=self.members).all(has_passed) && self.member_mut(at).held.remove(&stamp)
    }
}
