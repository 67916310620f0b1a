//! Random schedules of groups: messages that come late, again, too early or never, members that are silent for long, clocks
//! at their end and full lists of what was sent.

use super::Extent;
use super::builder;
use super::day::{Day, HABITS, Habits};
use super::model::Model;
use crate::case::Case;
use crate::random::Random;
use crate::rows::Row;
use crate::tree::Tree;

const LAST_CLOCK: u64 = 9_007_199_254_740_991;

/// Lines that are refused whatever the group.
const BAD_LINES: [&str; 11] = [
    "",
    "{\"do\":\"batch\",\"at\":1,\"caller\":0,\"serial\":0,\"commands\":{}}",
    "{\"do\":\"batch\",\"at\":1,\"caller\":0,\"serial\":0,\"commands\":[1]}",
    "{\"do\":\"batch\",\"at\":1,\"caller\":0,\"serial\":0,\"commands\":[{}]}",
    "{\"do\":\"receive\",\"at\":1,\"from\":2}",
    "{\"do\":\"receive\",\"at\":1,\"number\":1}",
    "{\"do\":\"receive\",\"from\":1,\"number\":1}",
    "{\"do\":\"receive\",\"at\":1,\"from\":2,\"number\":1.0}",
    "{\"do\":\"receive\",\"at\":1,\"from\":2,\"number\":4294967296}",
    "{\"do\":\"receive\",\"at\":1,\"from\":\"2\",\"number\":1}",
    "{\"do\":\"receive\",\"at\":1,\"from\":2,\"number\":1,\"stamp\":[1,1]}",
];

const CALLERS: [u32; 6] = [0, 0, 0, 1, 7, u32::MAX];

struct Group<'a> {
    day: Day<'a>,
    habits: Habits,
    model: Model,
    /// Those who submit, receive and deliver before the end. The others are silent until then.
    awake: Vec<u32>,
    schedule: Vec<u8>,
}

pub fn case(random: &mut Random, rows: &[&'static Row], extent: Extent, number: usize) -> Case {
    let members = random.pick(&[1, 2, 2, 3, 3, 4, 5, 6, 7, 8]);
    let clock = match random.below(10) {
        0..6 => 0,
        6 => random.pick(&[u64::from(u32::MAX) - 20, 9_007_199_254_000_000]),
        _ => LAST_CLOCK - random.below(60) as u64,
    };
    let sent_limit = if random.chance(75) { 65_536 } else { random.between(1, 12) as u32 };
    let length = if extent == Extent::Whole { random.between(100, 1_500) } else { random.between(60, 200) };
    let habits = random.pick(&HABITS);
    let mut awake: Vec<u32> = (1..=members).collect();
    random.shuffle(&mut awake);
    if random.chance(35) {
        awake.truncate(random.between(1, members as usize));
    }
    let mut day = Day::new(random, rows);
    let founding = day.founding(&format!("members = {members}\nclock = {clock}\nsent_limit = {sent_limit}"));
    let model = Model::new(members, clock, sent_limit);
    let mut group = Group { day, habits, model, awake, schedule: Vec::new() };
    for _ in 0..length {
        if group.is_stuck() && group.day.random.chance(2) {
            break;
        }
        group.step();
    }
    if group.day.random.chance(65) {
        group.end();
    }
    Case::of_group(format!("group-{number:05}"), founding.into_bytes(), group.schedule)
}

impl Group<'_> {
    fn line(&mut self, line: &str) {
        self.schedule.extend_from_slice(line.as_bytes());
        self.schedule.push(b'\n');
    }

    fn event(&mut self, event: Tree) {
        let varied = self.day.random.chance(self.habits.varied);
        let line = if varied { event.varied(self.day.random) } else { event.compact() };
        self.line(&line);
    }

    /// Whether nobody who is awake can submit or take anything.
    fn is_stuck(&self) -> bool {
        let can_receive = self.model.open_pairs().iter().any(|(at, _)| self.awake.contains(at));
        !can_receive && !self.awake.iter().any(|at| self.model.can_submit(*at))
    }

    /// Each command makes about as many messages as there are pairs of members, so in a large group few are submitted.
    fn step(&mut self) {
        let (submits, deliveries) = match self.model.members {
            1 => (45, 45),
            2 => (28, 25),
            3 => (18, 20),
            4 => (12, 15),
            _ => (6, 12),
        };
        let roll = self.day.random.below(100);
        if roll < submits {
            self.submit();
        } else if roll < submits + deliveries {
            self.deliver();
        } else if roll < 90 {
            self.receive();
        } else {
            self.odd_event();
        }
    }

    fn any_awake(&mut self) -> u32 {
        self.day.random.pick(&self.awake)
    }

    /// A member who cannot submit any more takes a message most often, or cannot take it either.
    fn submit(&mut self) {
        let (at, caller) = (self.any_awake(), self.day.random.pick(&CALLERS));
        if !self.model.can_submit(at) && self.day.random.chance(80) {
            return self.refused_receipt(at);
        }
        let serial = self.model.next_serial(at, caller);
        if self.day.random.chance(20) {
            let count = builder::any_count(self.day.random);
            let commands = self.day.commands(&self.habits, count);
            self.event(builder::batch(at, caller, serial, commands));
            return self.model.submit(at, caller, count as u32);
        }
        let command = self.day.command(&self.habits);
        self.event(builder::submit(at, caller, serial, command));
        self.model.submit(at, caller, 1);
    }

    /// A batch that its member does not take, or that is nobody's.
    fn odd_batch(&mut self, at: u32, stranger: u32) -> Tree {
        let (serial, count) = builder::bad_batch(self.day.random, self.model.next_serial(at, 0));
        let (at, serial, count) = match self.day.random.below(6) {
            0 => (stranger, serial, count),
            1 => (at, 3_000_000, 2),
            _ => (at, serial, count),
        };
        builder::batch(at, 0, serial, self.day.commands(&self.habits, count))
    }

    fn deliver(&mut self) {
        let at = self.any_awake();
        self.event(builder::deliver(at));
        self.model.deliver(at);
    }

    /// The next message of a pair, which may have waited for long, or what else there is to do.
    fn receive(&mut self) {
        let open = self.model.open_pairs();
        let open: Vec<(u32, u32)> = open.into_iter().filter(|(at, _)| self.awake.contains(at)).collect();
        if open.is_empty() {
            return if self.day.random.chance(50) { self.deliver() } else { self.odd_event() };
        }
        let (at, from) = self.day.random.pick(&open);
        let number = self.model.receive(at, from);
        self.event(builder::receive(at, from, number));
    }

    /// The next message of a sender at a member who has no room for it, if there is such a sender.
    fn refused_receipt(&mut self, at: u32) {
        let waiting = self.model.waiting(at);
        if waiting.is_empty() {
            return self.receive();
        }
        let from = self.day.random.pick(&waiting);
        self.event(builder::receive(at, from, self.model.taken(at, from) + 1));
    }

    /// An event that is refused, most often, or a line that is none.
    fn odd_event(&mut self) {
        let (at, members) = (self.any_awake(), self.model.members);
        let from = self.day.random.between(1, members as usize) as u32;
        let stranger = self.day.random.pick(&[0, members + 1, 9, u32::MAX]);
        let event = match self.day.random.below(13) {
            0..7 => {
                let number = self.odd_number(at, from);
                // At a clock or a list that is full, and at a pair that is open, this may be the message in turn.
                if number == self.model.taken(at, from) + 1 && self.model.open_pairs().contains(&(at, from)) {
                    self.model.receive(at, from);
                }
                builder::receive(at, from, number)
            }
            7 => builder::receive(stranger, from, 1),
            8 => builder::receive(at, stranger, 1),
            9 => builder::deliver(stranger),
            10 => {
                let (at, serial) = self.day.random.pick(&[(stranger, 0), (at, 3_000_000)]);
                builder::submit(at, 0, serial, self.day.command(&self.habits))
            }
            11 => self.odd_batch(at, stranger),
            _ => {
                let line = self.day.random.pick(&BAD_LINES);
                return self.line(line);
            }
        };
        self.event(event);
    }

    /// The number of a message: one that was taken, one that comes later, one that was not sent, or the next.
    fn odd_number(&mut self, at: u32, from: u32) -> u32 {
        let (sent, taken) = (self.model.sent(from), self.model.taken(at, from));
        let below = |random: &mut Random, first: u32, last: u32| random.between(first as usize, last as usize) as u32;
        match self.day.random.below(6) {
            0 | 1 if taken > 0 => below(self.day.random, 1, taken),
            2 | 3 if sent > taken + 1 => below(self.day.random, taken + 2, sent),
            4 => self.day.random.pick(&[0, sent + 1, u32::MAX]),
            _ => taken + 1,
        }
    }

    /// Everybody wakes, takes what there is to take, and delivers what can be delivered.
    fn end(&mut self) {
        self.awake = (1..=self.model.members).collect();
        loop {
            let open = self.model.open_pairs();
            if open.is_empty() {
                break;
            }
            if self.day.random.chance(4) {
                self.odd_event();
                continue;
            }
            let (at, from) = self.day.random.pick(&open);
            let number = self.model.receive(at, from);
            self.event(builder::receive(at, from, number));
        }
        for at in self.awake.clone() {
            while self.model.deliver(at) {
                self.event(builder::deliver(at));
            }
            self.event(builder::deliver(at));
        }
    }
}
