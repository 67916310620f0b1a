//! What a process knows of the rows of a generation: its member by the library, and what was read of the others' rows and is not taken yet.
use super::fault::{fault_of, MemberFault};
use super::inbox::{Inbox, Message, Wanted};
use super::opening::{Opening, Part};
use super::recent::Recent;
use crate::answer::Answer;
use crate::generation::Generation;
use crate::message::Head;
use crate::node::{Check, Query, Stamp};
use crate::policy::Policy;
use fochillun::{Member, MemberError, Waiting};
use rows::cell::{DumpPart, Sent};
use serde::Deserialize;
use serde_json::value::RawValue;

/// The member, and what was read for it.
#[derive(Debug)]
pub(crate) struct Taking {
    pub(super) member: Member,
    founding: String,
    /// What answers reviews; none before the first is asked.
    reviewed: Option<Reviewed>,
    pub(super) number: u32,
    pub(super) inboxes: Vec<Inbox>,
    /// The last messages that were read or set.
    pub(crate) recent: Recent,
    pub(super) opening: Opening,
    /// Whether the member's own row has ended, and was taken to its seal.
    pub(super) is_sealed: bool,
    /// Whether a message wanted one of the member's own that can't be sent.
    pub(super) is_full: bool,
    /// How many records the history has.
    pub(crate) records: u64,
    /// The stamp of the last one.
    pub(crate) stamp: Option<Stamp>,
    /// How many messages of the member's own are set in its row and were taken.
    own: u32,
    /// The clock of the last of these; 0 before the first.
    set_clock: u64,
    /// The clock of the member's own last message, which may not be set yet.
    sent_clock: u64,
    /// How many messages the member has taken, its own too.
    steps: u64,
}

/// What a message wants before it is taken.
#[derive(Clone, Copy, Debug, PartialEq, Eq)]
pub(super) enum Asked {
    Nothing,
    /// A message of the member's own row with a greater stamp.
    Answer,
}

/// A line of a dump.
#[derive(Deserialize)]
struct DumpLine<'t> {
    #[serde(borrow)]
    command: &'t RawValue,
}

/// A record of the history.
#[derive(Deserialize)]
struct Record<'t> {
    #[serde(borrow)]
    command: &'t RawValue,
    #[serde(borrow)]
    answer: &'t RawValue,
}

/// A policy that has carried out so many records of the history.
#[derive(Debug)]
struct Reviewed {
    policy: Policy,
    records: u64,
}

/// So many records are carried out one by one. Where there are more, the policy is made of the member's dump, which has some 35,000 commands at most.
const MOST_BEHIND: u64 = 20_000;

impl Taking {
    pub(super) fn of(
        member: Member,
        number: u32,
        generation: &Generation,
        opening: Opening,
    ) -> Taking {
        let members = generation.members();
        Taking {
            member,
            founding: generation.file.clone(),
            reviewed: None,
            number,
            inboxes: (0..members).map(|_| Inbox::default()).collect(),
            recent: Recent::default(),
            opening,
            is_sealed: false,
            is_full: false,
            records: 0,
            stamp: None,
            own: 0,
            set_clock: 0,
            sent_clock: 0,
            steps: 0,
        }
    }

    pub(super) fn others(&self) -> impl Iterator<Item = u32> {
        let own = self.number;
        (1..=self.inboxes.len() as u32).filter(move |member| *member != own)
    }

    /// A message of the member's own stands in its row: takes it.
    pub(super) fn take_own(
        &mut self,
        number: u32,
        message: &str,
        taken: &[u64],
        dump: Option<DumpPart>,
    ) -> Result<(), MemberFault> {
        let head = self.take_unset(number, message)?;
        self.has_own(number, head, message, taken, dump)
    }

    /// Takes a message of the member's own that is to stand in its row next, and may not stand there yet.
    pub(super) fn take_unset(&mut self, number: u32, message: &str) -> Result<Head, MemberFault> {
        let took = self.member.take_own(number, message);
        took.map_err(|why| fault_of(self.number, number.into(), why))?;
        let head = Head::of_known(message);
        self.sent_clock = head.clock();
        self.steps += 1;
        Ok(head)
    }

    /// The member has taken this message, which stands in its own row and has this head, and was made when it had taken so many of each.
    pub(super) fn has_own(
        &mut self,
        number: u32,
        head: Head,
        message: &str,
        taken: &[u64],
        dump: Option<DumpPart>,
    ) -> Result<(), MemberFault> {
        if self.is_sealed {
            let (member, number) = (self.number, number.into());
            return Err(MemberFault::BehindASeal { member, number });
        }
        if self.number == 1 {
            let part = self.opening.read(message, dump);
            let part = part.ok_or(MemberFault::OtherDump(number.into()))?;
            self.opening.take(part);
        }
        self.recent.put(self.number, number, head, taken.to_vec());
        (self.own, self.set_clock) = (number, head.clock());
        self.sent_clock = self.sent_clock.max(head.clock());
        self.is_sealed = head.is_seal();
        Ok(())
    }

    /// The next message of another member was read of its row.
    pub(super) fn put(&mut self, member: u32, mut sent: Sent) -> Result<(), MemberFault> {
        let number = sent.number;
        let inbox = &mut self.inboxes[member as usize - 1];
        if inbox.is_sealed {
            return Err(MemberFault::BehindASeal { member, number });
        }
        let part = match member {
            1 => self.opening.read(sent.message.get(), sent.dump),
            _ => Some(Part::Other),
        };
        let part = part.ok_or(MemberFault::OtherDump(number))?;
        let (head, taken) = (
            Head::of(sent.message.get()),
            std::mem::take(&mut sent.taken),
        );
        let message = Message::of(sent, head, part);
        if let Some(head) = head {
            self.recent.put(member, message.number, head, taken);
        }
        inbox.put(message);
        Ok(())
    }

    /// Takes what was read as far as that needs no message of the member's own. What a message with commands wants is asked once nothing else is left,
    /// since it is long, and only where an acknowledgement can be sent.
    pub(super) fn take_ready(&mut self, acknowledges: bool) -> Result<(), MemberFault> {
        self.take_what_wants_nothing(false)?;
        match acknowledges {
            true => self.take_what_wants_nothing(true),
            false => Ok(()),
        }
    }

    fn take_what_wants_nothing(&mut self, asks_of_commands: bool) -> Result<(), MemberFault> {
        loop {
            let before = self.steps;
            for member in self.others() {
                while self.first_wants(member, asks_of_commands)? == Some(Asked::Nothing)
                    && self.take_first(member)?
                {}
            }
            // Once a message of one member was taken, that of another may want something else.
            if self.steps == before {
                return Ok(());
            }
        }
    }

    /// What the first message that was read of a member wants, an answer where that is not asked; none where there is none. Nothing is wanted where the
    /// member itself has sent something later; of each other message the library says it, and says it anew once the member took another one: a message
    /// that wanted an acknowledgement may want none any more. Another's seal is taken behind the own one alone: the member would acknowledge above it,
    /// and could not end its own row then.
    fn first_wants(
        &mut self,
        member: u32,
        asks_of_commands: bool,
    ) -> Result<Option<Asked>, MemberFault> {
        let inbox = &self.inboxes[member as usize - 1];
        let Some(message) = inbox.first() else {
            return Ok(None);
        };
        if message.is_seal() && !self.is_sealed {
            return Ok(Some(Asked::Answer));
        }
        if (message.clock(), member) < (self.sent_clock, self.number) {
            return Ok(Some(Asked::Nothing));
        }
        match &inbox.wanted {
            Some(wanted) if wanted.asked_at == self.steps => Ok(Some(Asked::Answer)),
            _ if message.has_commands() && !asks_of_commands => Ok(Some(Asked::Answer)),
            _ => self.ask_first(member).map(Some),
        }
    }

    /// Asks what the first message of a member wants to be answered before it is taken, and keeps it.
    fn ask_first(&mut self, member: u32) -> Result<Asked, MemberFault> {
        let inbox = &mut self.inboxes[member as usize - 1];
        inbox.wanted = None;
        let message = inbox.first().expect("a message was read");
        let (number, text) = (message.number, message.text.get());
        let answer = match self.member.next_answer(member, number, text) {
            Ok(answer) => answer,
            Err(MemberError::SentFull | MemberError::ClockFull) => {
                self.is_full = true;
                return Ok(Asked::Answer);
            }
            Err(why) => return Err(fault_of(member, number.into(), why)),
        };
        let asked_at = self.steps;
        inbox.wanted = answer.map(|answer| Wanted { answer, asked_at });
        match inbox.wanted {
            Some(_) => Ok(Asked::Answer),
            None => Ok(Asked::Nothing),
        }
    }

    /// Takes the first message of a member, which sends nothing, and tells whether it did: not where no more can be sent.
    fn take_first(&mut self, member: u32) -> Result<bool, MemberFault> {
        let inbox = &mut self.inboxes[member as usize - 1];
        let message = inbox.first().expect("a message was read");
        let (number, text) = (message.number, message.text.get());
        match self.member.receive(member, number, text) {
            Ok(sent) => assert_eq!(sent, None, "a message was sent that is in no cell"),
            Err(MemberError::SentFull | MemberError::ClockFull) => {
                self.is_full = true;
                return Ok(false);
            }
            Err(why) => return Err(fault_of(member, number.into(), why)),
        }
        let part = inbox.take_first().part;
        self.opening.take(part);
        self.steps += 1;
        Ok(true)
    }

    /// The acknowledgement that lets most of what was read be taken, where one is wanted. What each message wants was asked by the turn before.
    pub(super) fn acknowledgement(&self) -> Option<String> {
        let wanted = self.inboxes.iter().filter_map(|it| it.wanted.as_ref());
        let latest = wanted.max_by_key(|wanted| Head::of_known(&wanted.answer).clock());
        latest.map(|wanted| wanted.answer.clone())
    }

    /// The latest clock of what was read and is not taken, but for seals; 0 where nothing is left.
    pub(super) fn latest_read(&self) -> u64 {
        let clocks = self.inboxes.iter().flat_map(Inbox::clocks);
        clocks.max().unwrap_or(0)
    }

    /// Delivers what is due, one command, where a message of the member's own is set that is not earlier: else another process, which is made anew of
    /// the row, could still send something before it. Gives which.
    pub(super) fn deliver_next(&mut self) -> Result<Option<Waiting>, MemberFault> {
        let is_settled =
            |held: &Waiting| (held.clock, held.member) <= (self.set_clock, self.number);
        let Some(held) = self.member.waits().filter(is_settled) else {
            return Ok(None);
        };
        let delivered = self.member.deliver().map_err(|_| MemberFault::NoMemory)?;
        let Some(record) = delivered else {
            return Ok(None);
        };
        self.records = record;
        self.stamp = Some(Stamp(held.clock, held.member, held.place));
        Ok(Some(held))
    }

    /// Of whom a message is missing, without which the next command can't be delivered.
    pub(crate) fn awaited(&mut self) -> Vec<u32> {
        let awaited = self.member.waits().map_or(0, |held| held.awaited);
        let is_awaited = |member: &u32| awaited >> (member - 1) & 1 == 1;
        (1..=self.inboxes.len() as u32).filter(is_awaited).collect()
    }

    /// How many messages of each member were taken, its own too.
    pub(super) fn taken(&mut self) -> Vec<u64> {
        let own = u64::from(self.own);
        let numbers = 1..=self.inboxes.len() as u32;
        numbers
            .map(|member| match member == self.number {
                true => own,
                false => self.member.read(member),
            })
            .collect()
    }

    /// The records of these numbers, from 1 on, which the history has.
    pub(crate) fn records(&mut self, numbers: std::ops::Range<u64>) -> Vec<String> {
        let record = |number| self.member.record(number as usize);
        let records = numbers.map(record).collect::<Result<_, _>>();
        records.expect("a record of the history can be told")
    }

    /// Whether the generation ended before anybody may have sent a command in it.
    pub(super) fn is_void(&self) -> bool {
        let is_first_sealed = match self.number {
            1 => self.is_sealed,
            _ => self.inboxes[0].is_sealed,
        };
        is_first_sealed && self.opening.is_void_behind_a_seal()
    }

    /// Whether all rows have ended, and all that stands in them was taken and delivered.
    pub(super) fn is_over(&mut self) -> bool {
        let is_taken = |member: u32| self.inboxes[member as usize - 1].is_taken_to_its_end();
        self.is_sealed && self.others().all(is_taken) && self.member.waits().is_none()
    }

    /// The rows of others that have not ended, as far as they were read.
    pub(super) fn not_sealed(&self) -> impl Iterator<Item = u32> + '_ {
        let is_sealed = |member: u32| self.inboxes[member as usize - 1].is_sealed;
        self.others().filter(move |member| !is_sealed(*member))
    }

    /// Whether what was delivered has all of the dump, so that the policy is one that the group had.
    pub(crate) fn is_shown(&self) -> bool {
        self.opening.is_open && self.records >= self.opening.total as u64
    }

    /// What a question is told by the policy of the history.
    pub(crate) fn query(&mut self, query: &Query) -> Result<Answer, MemberError> {
        match query {
            Query::Check(Check {
                session,
                operation,
                object,
            }) => Answer::of_check(self.member.check(session, operation, object).0),
            Query::Subjects { operation, object } => {
                Answer::of_subjects(self.member.subjects(operation, object))
            }
            Query::Review(_) | Query::Why(_) | Query::Owner { .. } => {
                self.reviewed()?.policy.query(query)
            }
        }
    }

    /// The policy of the history beside the member, which is made where it is asked for, and is taken along then.
    fn reviewed(&mut self) -> Result<&mut Reviewed, MemberError> {
        let (records, is_near) = match &self.reviewed {
            Some(it) => (it.records, self.records - it.records <= MOST_BEHIND),
            None => (0, false),
        };
        let mut reviewed = match self.reviewed.take().filter(|_| is_near) {
            Some(reviewed) => reviewed,
            None => self.reviewed_anew()?,
        };
        if is_near {
            for number in records + 1..=self.records {
                let record = self.member.record(number as usize)?;
                let record: Record<'_> = serde_json::from_str(&record).expect("a record");
                let answer = reviewed.policy.apply(record.command.get());
                let answer = answer.map_err(|_| MemberError::NoMemory)?;
                assert_eq!(answer, record.answer.get(), "record {number}");
            }
            reviewed.records = self.records;
        }
        Ok(self.reviewed.insert(reviewed))
    }

    fn reviewed_anew(&mut self) -> Result<Reviewed, MemberError> {
        let dump = self.dump().map_err(|_| MemberError::NoMemory)?;
        let policy = Policy::of(self.founding.as_bytes());
        let mut policy = policy.map_err(|_| MemberError::NoMemory)?;
        let made = policy.apply_dump(dump.iter().map(String::as_str));
        made.map_err(|_| MemberError::NoMemory)?;
        Ok(Reviewed {
            policy,
            records: self.records,
        })
    }

    /// The commands that make the policy of the history.
    pub(crate) fn dump(&mut self) -> Result<Vec<String>, MemberFault> {
        let dump = self.member.dump().map_err(|_| MemberFault::NoMemory)?;
        let command = |line: &str| {
            let line: DumpLine<'_> = serde_json::from_str(line).expect("a client line");
            line.command.get().to_owned()
        };
        Ok(dump.lines().map(command).collect())
    }
}
