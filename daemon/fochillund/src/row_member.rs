//! A member over its row, in one generation: what is read and asked goes in, and what is to be set and what callers are told comes out. It opens
//! nothing, waits for nothing and reads no clock, so that a test can play any order of events.
//!
//! What is shown rests on the rows alone. A message of the member's own is in its memory while its cell is being set, so that those of others which it
//! acknowledges are taken meanwhile; but a command is delivered only once a message of the member's own is set that is not earlier. Each other one that
//! is earlier than that command stands in a row then, or never will: whatever happens to the process, nothing that it told rests on what could be
//! forgotten. Seals, and the dump, are in no memory before they are set.
mod call;
mod ends;
mod fault;
mod history;
mod inbox;
mod left;
mod observer;
mod opening;
mod queue;
mod recent;
mod taking;

pub use call::{NewCall, Refusal, Reply, MOST_BYTES, MOST_COMMANDS, MOST_WAITING};
pub use ends::check_ends;
pub use fault::MemberFault;
pub(crate) use left::Left;
pub use observer::RowObserver;
pub use opening::{Begins, Dump};
pub use recent::RecentMessage;

use crate::generation::Generation;
use crate::message::{commands_of, is_seal, later_than, seal_of, Head};
use bytes::Bytes;
use call::{ReadCall, LONGEST_MESSAGE};
use fault::fault_of;
use fochillun::{Member, MemberError, RestoreError};
use history::{History, Place};
use opening::Opening;
use queue::{Batch, Queue};
use rows::cell::{Cell, Chain, DumpPart, Sent};
use serde_json::value::RawValue;
pub(crate) use taking::Taking;

/// For whom a member waits.
#[derive(Clone, Debug, Default, PartialEq, Eq)]
pub struct Waits {
    /// Members of whom a message is missing, from 1 on.
    pub members: Vec<u32>,
    /// Whether a cell is being set.
    pub row: bool,
    /// How many calls wait to be sent.
    pub queued: usize,
    /// How many are sent and not answered.
    pub sent: usize,
}

/// A cell that is to be set.
#[derive(Debug)]
struct Setting<W> {
    cell: Cell,
    text: Bytes,
    batch: Option<Batch<W>>,
    /// That of its message, where this is in the member's memory.
    taken: Option<Head>,
}

/// A message that is to be sent.
enum Next<W> {
    Calls(String, Batch<W>),
    Acknowledgement(String),
    Dump(String, DumpPart),
    Seal,
}

/// A member, and the calls that it was asked. `W` is what waits for a call's reply.
#[derive(Debug)]
pub struct RowMember<W> {
    taking: Taking,
    /// A member that has done nothing, by which commands are read.
    reader: Member,
    writer: String,
    chain: Chain,
    sent_limit: u64,
    queue: Queue<W>,
    history: History<W>,
    setting: Option<Setting<W>>,
    told: Vec<(W, Reply)>,
    is_full: bool,
    is_closing: bool,
    /// Whether the row ended without a message that is in the member's memory.
    is_beside_its_row: bool,
}

impl<W> RowMember<W> {
    /// The member of a generation that has these cells in its row: made anew, or for the first time where there is none. `writer` is a word that no
    /// other process has, and `chain` stands behind the cells.
    ///
    /// # Errors
    /// Where the founding founds no such member, or a message of the row is none.
    pub fn restore(
        generation: &Generation,
        number: u32,
        begins: Begins,
        writer: String,
        chain: Chain,
        cells: &[Cell],
    ) -> Result<RowMember<W>, MemberFault> {
        let founding = generation.file.as_bytes();
        let messages = cells.iter().map(|cell| cell.message.get());
        let member = Member::restore(founding, number, messages).map_err(|error| match error {
            RestoreError::Open(why) => MemberFault::Founding(why),
            RestoreError::TakeOwn { number: at, error } => fault_of(number, at.into(), error),
        })?;
        let opening = Opening::of(begins);
        let mut taking = Taking::of(member, number, generation, opening);
        let mut history = History::new();
        for (place, cell) in (1..).zip(cells) {
            let message = cell.message.get();
            let head = Head::of_known(message);
            taking.has_own(place, head, message, &cell.taken, cell.dump)?;
            let called: usize = cell.calls.iter().map(|call| call.commands).sum();
            if called != head.commands && (called != 0 || cell.dump.is_none()) {
                return Err(MemberFault::Calls(cell.number));
            }
            history.sent(place, &cell.calls, head.commands);
        }
        Ok(RowMember {
            taking,
            reader: Member::open(founding, number)?,
            writer,
            chain,
            sent_limit: generation.sent_limit(),
            queue: Queue::new(),
            history,
            setting: None,
            told: Vec::new(),
            is_full: false,
            is_closing: false,
            is_beside_its_row: false,
        })
    }

    /// A caller asks. What it is told comes by [`RowMember::take_told`].
    pub fn ask(&mut self, call: NewCall, waiter: W) {
        match self.read(call) {
            Ok(call) => self.ask_read(call, waiter),
            Err(refusal) => self.told.push((waiter, Err(refusal))),
        }
    }

    /// Reads a call's commands as the member will.
    fn read(&mut self, call: NewCall) -> Result<ReadCall, Refusal> {
        let message = self.reader.next_submit_batch(0, 0, call.commands.get());
        let message = message.map_err(Refusal::Commands)?;
        if message.len() > LONGEST_MESSAGE {
            return Err(Refusal::Commands(MemberError::MessageTooLong));
        }
        Ok(ReadCall {
            identity: call.identity,
            commands: commands_of(&message)
                .into_iter()
                .map(str::to_owned)
                .collect(),
        })
    }

    fn ask_read(&mut self, call: ReadCall, waiter: W) {
        if let Some(identity) = &call.identity {
            if let Some(place) = self.history.place_of(identity) {
                return self.ask_again(place, &call, waiter);
            }
            let mut setting = self.setting.iter_mut().filter_map(|it| it.batch.as_mut());
            let found = self
                .queue
                .find(identity)
                .or_else(|| setting.find_map(|batch| batch.find(identity)));
            if let Some((commands, waiters)) = found {
                if commands == call.commands {
                    waiters.push(waiter);
                } else {
                    self.told.push((waiter, Err(Refusal::OtherCommands)));
                }
                return;
            }
        }
        let refusal = match () {
            () if self.taking.is_sealed => Refusal::NotTaken,
            () if self.is_full => Refusal::Full,
            () if self.queue.is_full() => Refusal::Busy,
            () => return self.queue.put(call, waiter),
        };
        self.told.push((waiter, Err(refusal)));
    }

    /// A call is asked that was sent before: it is answered of the history, or waits for it.
    fn ask_again(&mut self, place: Place, call: &ReadCall, waiter: W) {
        let message = self.message_of(place);
        let sent = &commands_of(&message)[place.first..place.first + place.commands];
        if sent != call.commands {
            self.told.push((waiter, Err(Refusal::OtherCommands)));
        } else if let Some(records) = self.history.records_of(place) {
            let reply = self.records(records);
            self.told.push((waiter, Ok(reply)));
        } else {
            self.history.wait(place, waiter);
        }
    }

    fn message_of(&mut self, place: Place) -> String {
        let message = self.taking.member.message(place.message as usize);
        message.expect("a message that was sent can be told")
    }

    /// A cell of another member's row was read: the next one.
    ///
    /// # Errors
    /// Where it is none that may stand there.
    pub fn put_cell(&mut self, member: u32, cell: Sent) -> Result<(), MemberFault> {
        self.taking.put(member, cell)
    }

    /// The generation is to end: the row is sealed behind what is being set, and no call is sent any more.
    pub fn close(&mut self) {
        self.is_closing = true;
    }

    /// Takes what was read as far as that needs no message of the member's own, and delivers what is due. Which acknowledgement wants what is left is
    /// asked where the next message of the member's own would be one.
    ///
    /// # Errors
    /// Where a message can't be taken.
    pub fn turn(&mut self) -> Result<(), MemberFault> {
        let acknowledges = self.setting.is_none() && !self.has_calls();
        self.taking.take_ready(acknowledges)?;
        if self.taking.is_full && !self.is_closing {
            self.be_full();
        }
        self.deliver()
    }

    /// The cell that is to be set next: its number and text. None where there is none, or one is being set. Whoever asks it has to tell
    /// [`RowMember::was_set`] once it is set, or [`RowMember::was_taken`], and takes no other from this row.
    ///
    /// # Errors
    /// Where a message can't be taken.
    pub fn next_cell(&mut self) -> Result<Option<(u64, Bytes)>, MemberFault> {
        if self.setting.is_some() {
            return Ok(None);
        }
        self.turn()?;
        let next = match () {
            () if self.taking.is_sealed => None,
            () if self.is_closing => Some(Next::Seal),
            () if !self.has_room() => None,
            () if self.is_dumping() => Some(self.next_of_dump()?),
            () => self.next_message()?,
        };
        next.map(|next| self.begin(next)).transpose()
    }

    /// Whether the row has room for a message more. Its last cell is for the seal.
    fn has_room(&mut self) -> bool {
        let has_room = self.chain.next() < self.sent_limit;
        if !has_room {
            self.be_full();
        }
        has_room
    }

    /// Whether calls wait that go into the member's next message.
    fn has_calls(&self) -> bool {
        self.taking.opening.is_open && self.queue.len() > 0
    }

    /// The calls that wait, in a message that acknowledges all that was read; or an acknowledgement.
    fn next_message(&mut self) -> Result<Option<Next<W>>, MemberFault> {
        if self.has_calls() {
            if let Some(message) = self.next_submit()? {
                return Ok(Some(Next::Calls(message, self.queue.take())));
            }
            self.turn()?;
        }
        Ok(self.taking.acknowledgement().map(Next::Acknowledgement))
    }

    fn begin(&mut self, next: Next<W>) -> Result<(u64, Bytes), MemberFault> {
        let is_ahead = matches!(next, Next::Calls(..) | Next::Acknowledgement(_));
        let (message, batch, dump) = match next {
            Next::Calls(message, batch) => (message, Some(batch), None),
            Next::Acknowledgement(message) => (message, None, None),
            Next::Dump(message, part) => (message, None, Some(part)),
            Next::Seal => (seal_of(self.taking.number), None, None),
        };
        let number = self.chain.next();
        let taken_before = self.taken();
        let taken = match is_ahead {
            true => Some(self.taking.take_unset(number_of(number), &message)?),
            false => None,
        };
        let message = RawValue::from_string(message).expect("a message is JSON");
        let mut cell = self.chain.cell(&self.writer, taken_before, message);
        cell.calls = batch.as_ref().map_or_else(Vec::new, Batch::told);
        cell.dump = dump;
        let text = Bytes::from(serde_json::to_vec(&cell).expect("a cell is JSON"));
        self.setting = Some(Setting {
            cell,
            text: text.clone(),
            batch,
            taken,
        });
        Ok((number, text))
    }

    /// The cell that was to be set is set: its message is the member's now.
    ///
    /// # Errors
    /// Where memory ends.
    pub fn was_set(&mut self) -> Result<(), MemberFault> {
        let Setting {
            cell,
            text,
            batch,
            taken,
        } = self.setting.take().expect("a cell was being set");
        let (at, message) = (number_of(self.chain.next()), cell.message.get());
        let head = match taken {
            Some(head) => head,
            None => self.taking.take_unset(at, message)?,
        };
        self.taking
            .has_own(at, head, message, &cell.taken, cell.dump)?;
        self.chain.follow(&text);
        let places = self.history.sent(at, &cell.calls, head.commands);
        let waiters = batch.into_iter().flat_map(|batch| batch.waiters);
        for (place, waiters) in places.into_iter().zip(waiters) {
            for waiter in waiters {
                self.history.wait(place, waiter);
            }
        }
        self.tell_not_taken();
        self.turn()
    }

    /// The next cell of the row was set by somebody else, to this text. A seal is as good as the member's own; where its memory has a message that was to
    /// be set there, it has to be made anew of its row ([`RowMember::is_beside_its_row`]).
    ///
    /// # Errors
    /// `Fenced`, where it is no seal: another process is this member.
    pub fn was_taken(&mut self, text: &[u8]) -> Result<(), MemberFault> {
        let cell = self.chain.clone().take(text)?;
        if !is_seal(cell.message.get()) {
            return Err(MemberFault::Fenced);
        }
        let setting = self.setting.take();
        self.is_beside_its_row = setting.as_ref().is_some_and(|it| it.taken.is_some());
        let batch = setting.and_then(|setting| setting.batch);
        for waiter in batch.into_iter().flat_map(Batch::into_waiters) {
            self.told.push((waiter, Err(Refusal::NotTaken)));
        }
        if self.is_beside_its_row {
            self.refuse_waiting(Refusal::NotTaken);
            return Ok(());
        }
        let at = number_of(self.chain.next());
        let message = cell.message.get();
        self.taking.take_own(at, message, &cell.taken, None)?;
        self.chain.follow(text);
        self.tell_not_taken();
        self.turn()
    }

    /// Whether its row ended without a message that is in its memory. Then it is made anew, and nothing else is asked of it.
    pub fn is_beside_its_row(&self) -> bool {
        self.is_beside_its_row
    }

    /// Behind the seal nothing is sent: who waits to be sent is told.
    fn tell_not_taken(&mut self) {
        if self.taking.is_sealed {
            self.refuse_waiting(Refusal::NotTaken);
        }
    }

    /// The generation ended before it began: who waits to be sent is told.
    pub fn leave(&mut self) {
        self.refuse_waiting(Refusal::NotTaken);
    }

    fn refuse_waiting(&mut self, refusal: Refusal) {
        let refused = self.queue.take_all();
        self.told
            .extend(refused.map(|waiter| (waiter, Err(refusal))));
    }

    /// What callers are told since this was asked last.
    pub fn take_told(&mut self) -> Vec<(W, Reply)> {
        std::mem::take(&mut self.told)
    }

    /// For whom calls wait.
    pub fn waits(&mut self) -> Waits {
        Waits {
            members: self.taking.awaited(),
            row: self.setting.is_some(),
            queued: self.queue.len(),
            sent: self.history.waits(),
        }
    }

    /// How many messages of each member were taken; of itself, how many it sent.
    pub fn taken(&mut self) -> Vec<u64> {
        self.taking.taken()
    }

    /// Its number, from 1 on.
    pub fn number(&self) -> u32 {
        self.taking.number
    }

    /// Where its row's next cell goes.
    pub fn chain(&self) -> &Chain {
        &self.chain
    }

    /// How many commands of callers the cell has that is being set.
    pub fn commands_being_set(&self) -> usize {
        let calls = self.setting.iter().flat_map(|it| &it.cell.calls);
        calls.map(|call| call.commands).sum()
    }

    /// How many cells are left of its row, its seal's too.
    pub fn cells_left(&self) -> u64 {
        (self.sent_limit + 1).saturating_sub(self.chain.next())
    }

    /// How many records the member's history has.
    pub fn history_length(&self) -> u64 {
        self.taking.records
    }

    /// The records of these numbers, from 1 on, which the history has.
    pub fn records(&mut self, numbers: std::ops::Range<u64>) -> Vec<String> {
        self.taking.records(numbers)
    }

    /// Whether it takes the calls of callers: the dump by which the generation began was taken to its end, and the row has not ended.
    pub fn is_open(&self) -> bool {
        self.taking.opening.is_open && !self.taking.is_sealed
    }

    /// Whether its row has ended.
    pub fn is_sealed(&self) -> bool {
        self.taking.is_sealed
    }

    /// Whether the generation ended before anybody may have sent a command in it.
    pub fn is_void(&self) -> bool {
        self.taking.is_void()
    }

    /// Whether the policy that was delivered is one that the group had: not while it has a part of the dump by which the generation begins.
    pub fn is_shown(&self) -> bool {
        self.taking.is_shown()
    }

    /// Whether all rows have ended, and all that stands in them was delivered.
    pub fn is_over(&mut self) -> bool {
        self.taking.is_over()
    }

    /// The rows of others that have not ended, as far as they were read.
    pub fn not_sealed(&self) -> Vec<u32> {
        self.taking.not_sealed().collect()
    }

    /// What it shows: its policy, and how far that is right.
    pub(crate) fn taking(&mut self) -> &mut Taking {
        &mut self.taking
    }

    /// Whether the member is the first one of its generation and has not sent all of the dump.
    fn is_dumping(&self) -> bool {
        self.taking.number == 1 && !self.taking.opening.is_open
    }

    /// The next message of the dump.
    fn next_of_dump(&mut self) -> Result<Next<W>, MemberFault> {
        let opening = &self.taking.opening;
        let dump = opening.dump();
        let dump = dump.expect("who sends a dump knows the policy before");
        let part = DumpPart {
            first: opening.read,
            total: dump.commands.len(),
            founded_by: dump.founded_by,
        };
        let commands = together(&dump.commands[opening.read..]);
        let message = match commands.is_empty() {
            // A dump of nothing is told by a message of nothing.
            true => format!(r#"{{"stamp":[1,{}]}}"#, self.taking.number),
            false => self.submit_message(&format!("[{}]", commands.join(",")))?,
        };
        Ok(Next::Dump(message, part))
    }

    fn submit_message(&mut self, commands: &str) -> Result<String, MemberFault> {
        let member = &mut self.taking.member;
        let serial = u32::try_from(member.next_serial(0)).unwrap_or(u32::MAX);
        let message = member.next_submit_batch(0, serial, commands);
        message.map_err(|why| fault_of(self.taking.number, self.chain.next(), why))
    }

    /// The message that the calls that wait go into, as many as have room: later than all that was read. None where the member may send no more.
    fn next_submit(&mut self) -> Result<Option<String>, MemberFault> {
        let commands = self.queue.next_commands();
        let submitted = match self.submit_message(&commands) {
            Err(MemberFault::Message {
                why: MemberError::SentFull | MemberError::ClockFull,
                ..
            }) => None,
            told => later_than(told?, self.taking.latest_read()),
        };
        if submitted.is_none() {
            self.be_full();
        }
        Ok(submitted)
    }

    /// The member sends no more. Who waits to be sent is told; what was sent may still be answered.
    fn be_full(&mut self) {
        self.is_full = true;
        self.refuse_waiting(Refusal::Full);
    }

    fn deliver(&mut self) -> Result<(), MemberFault> {
        while let Some(held) = self.taking.deliver_next()? {
            if held.member != self.taking.number {
                continue;
            }
            for (place, waiter) in self.history.delivered(held.place, self.taking.records) {
                let numbers = self.history.records_of(place).expect("it was delivered");
                let reply = self.taking.records(numbers);
                self.told.push((waiter, Ok(reply)));
            }
        }
        Ok(())
    }
}

/// As many of these commands as go into one message of a dump.
fn together(commands: &[String]) -> &[String] {
    let mut bytes = 0;
    let fits = |command: &&String| {
        bytes += command.len() + 1;
        bytes <= MOST_BYTES
    };
    let first = commands.iter().take(MOST_COMMANDS);
    &commands[..first.take_while(fits).count()]
}

/// A message's number as the library has it.
fn number_of(number: u64) -> u32 {
    u32::try_from(number).expect("a member sends at most 65,536 messages")
}
