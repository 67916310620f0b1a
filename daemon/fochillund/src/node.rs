//! A node of a group, through its generations. It opens nothing, waits for nothing and reads no clock.
//!
//! A generation ends once the next one is proposed: each member seals its row, and who has read all rows to their seals has all commands of the
//! generation, and the same policy as each other one that has. By that the next begins: its first member sends the policy's dump, and the others take
//! calls once they took the dump's end. Where the first member's row is sealed before that, nobody has sent a call in that generation: it is void, and
//! the policy is that of the last one that is not.
mod seat;
mod shown;

pub use crate::row_member::RecentMessage;
pub use shown::{Check, NoStamp, Query, Shown, ShownAt, Stamp};

use crate::generation::{CellFault, Foundings, Generation};
use crate::message::commands_of;
use crate::row_member::{Begins, MemberFault, NewCall, Refusal, Waits};
use bytes::Bytes;
use rows::cell::{Cell, Chain, Sent};
use rows::RowName;
use seat::Seat;
use serde::{Deserialize, Serialize};
use std::ops::Range;
use thiserror::Error;

/// Why a call is not carried out here.
#[derive(Clone, Copy, Debug, PartialEq, Eq, Error)]
pub enum NodeRefusal {
    /// The member refuses it.
    #[error(transparent)]
    Call(Refusal),
    /// Its generation has ended without it: that is final. It can be asked in a later one.
    #[error("the generation has ended without this call")]
    NotTaken {
        /// The generation that goes on, or is about to.
        now: u64,
    },
    /// Its generation is over, and what became of its calls is not known any more.
    #[error("the generation is over")]
    OldGeneration {
        /// The generation that goes on.
        now: u64,
    },
    /// There is no such generation yet.
    #[error("there is no such generation yet")]
    NoGeneration {
        /// The generation that goes on.
        now: u64,
    },
    /// The caller's session has no permission for what it asks.
    #[error("the caller's session has no permission for this")]
    NotPermitted,
    /// In that generation the node is another member, or none.
    #[error("this node is another member, or none")]
    OtherMember {
        /// Which it is.
        member: Option<u32>,
    },
}

/// The records of a call.
#[derive(Clone, Debug, PartialEq, Eq)]
pub struct Answered {
    /// The generation that has them.
    pub generation: u64,
    /// The member that sent the call.
    pub member: u32,
    /// A record for each of its commands.
    pub records: Vec<String>,
}

/// What a caller is told.
pub type Reply = Result<Answered, NodeRefusal>;

/// A call of a member in a generation.
#[derive(Clone, Debug)]
pub struct Asked {
    /// The generation.
    pub generation: u64,
    /// The member, from 1 on.
    pub member: u32,
    /// The call.
    pub call: NewCall,
}

/// Why a node goes on no further.
#[derive(Clone, Debug, PartialEq, Eq, Error)]
pub enum NodeFault {
    /// A cell of the founding's row can't be taken.
    #[error(transparent)]
    Founding(#[from] CellFault),
    /// A member can't go on.
    #[error("generation {generation}: {fault}")]
    Member {
        /// Of this generation.
        generation: u64,
        /// Why.
        fault: MemberFault,
    },
}

/// Where a process begins: a generation of which it is known that it began, and before which none is asked for any more.
#[derive(Clone, Copy, Debug, PartialEq, Eq)]
pub struct Base {
    /// Its number.
    pub generation: u64,
    /// The generation whose cell has its founding file.
    pub founded_by: u64,
}

impl Base {
    /// The first generation.
    pub const FIRST: Base = Base {
        generation: 1,
        founded_by: 1,
    };

    /// This generation, where these cells of its first member's row have the dump by which it begins to its end.
    pub fn of(generation: u64, cells: &[Bytes]) -> Option<Base> {
        let cells = cells.iter().map(|text| serde_json::from_slice(text).ok());
        cells.flatten().find_map(|cell: Cell| {
            let dump = cell.dump?;
            let ends = dump.first + commands_of(cell.message.get()).len() == dump.total;
            let founded_by = dump.founded_by;
            ends.then_some(Base {
                generation,
                founded_by,
            })
        })
    }
}

/// A cell that is to be set.
#[derive(Clone, Debug, PartialEq, Eq)]
pub struct NextCell {
    /// The generation.
    pub generation: u64,
    /// The row.
    pub row: RowName,
    /// Its number there.
    pub number: u64,
    /// Its text.
    pub text: Bytes,
    /// How many commands of callers it has.
    pub commands: usize,
}

/// What a node is doing.
#[derive(Clone, Copy, Debug, PartialEq, Eq, Serialize, Deserialize)]
#[serde(rename_all = "lowercase")]
pub enum Phase {
    /// It takes calls, and the dump by which the generation begins is not taken to its end.
    Begins,
    /// It takes calls and sends them.
    Serves,
    /// The next generation was proposed, and this one is not over.
    Ends,
    /// It is no member of this generation, and follows it.
    Follows,
}

/// What a process does at a node. `W` is what waits for a call's reply.
#[derive(Debug)]
pub struct Node<W> {
    /// Its name; none of a process that follows a group and sends nothing.
    name: Option<String>,
    writer: String,
    foundings: Foundings,
    /// The last generation that is over and was not void.
    last: Option<Seat<W>>,
    now: Seat<W>,
    told: Vec<(W, Reply)>,
}

impl<W> Node<W> {
    /// A node, from a generation on. `writer` is a word that no other process has.
    ///
    /// # Errors
    /// Where the founding founds no such member.
    pub fn begin(
        name: Option<&str>,
        writer: &str,
        foundings: Foundings,
        base: Base,
    ) -> Result<Node<W>, NodeFault> {
        let generation = foundings.generation(base.generation, base.founded_by);
        let begins = match base.generation {
            1 => Begins::Empty,
            _ => Begins::WithUnknown,
        };
        let name = name.map(str::to_owned);
        Ok(Node {
            now: Seat::of(generation, name.as_deref(), begins)?,
            name,
            writer: writer.to_owned(),
            foundings,
            last: None,
            told: Vec::new(),
        })
    }

    /// The founding's row, as far as it was read.
    pub fn foundings(&self) -> &Foundings {
        &self.foundings
    }

    /// The generation that goes on.
    pub fn generation(&self) -> &Generation {
        &self.now.generation
    }

    /// The last generation that is over and was not void; none before the first one is over.
    pub fn last(&self) -> Option<u64> {
        self.last.as_ref().map(|last| last.generation.number)
    }

    /// The member that the node is in it.
    pub fn member(&self) -> Option<u32> {
        self.now.member()
    }

    /// The next cell of the founding's row was read.
    ///
    /// # Errors
    /// Where it is not what it has to be.
    pub fn put_founding(&mut self, text: &Bytes) -> Result<(), NodeFault> {
        Ok(self.foundings.take(text)?)
    }

    /// Where the node's own row of this generation begins, which has to be read to its end and given to [`Node::enter`] before anything else of the
    /// generation. None where that was done, or it has no row.
    pub fn wants_own_row(&self) -> Option<Chain> {
        let member = self.now.enters()?;
        Some(self.now.generation.chain(member))
    }

    /// The node's own row of this generation was read to its end: these are its cells, and where the next one goes.
    ///
    /// # Errors
    /// Where a cell of it can't be taken.
    pub fn enter(&mut self, chain: Chain, cells: &[Cell]) -> Result<(), NodeFault> {
        let asked = self.now.enter(&self.writer, chain, cells)?;
        for (asked, waiter) in asked {
            self.ask(asked, waiter);
        }
        Ok(())
    }

    /// The members whose rows of this generation are followed, from their beginning on.
    pub fn followed(&self) -> Vec<u32> {
        self.now.followed()
    }

    /// The next cell of a row of this generation was read.
    ///
    /// # Errors
    /// Where it is none that may stand there.
    pub fn put_cell(&mut self, member: u32, cell: Sent) -> Result<(), NodeFault> {
        self.now.put_cell(member, cell)
    }

    /// A caller asks. What it is told comes by [`Node::take_told`].
    pub fn ask(&mut self, asked: Asked, waiter: W) {
        let now = self.now.generation.number;
        let last = self.last.as_mut().map(|last| last.generation.number);
        let seat = match asked.generation {
            generation if generation > now => Err(NodeRefusal::NoGeneration { now }),
            generation if generation == now => Ok(&mut self.now),
            generation if Some(generation) == last => Ok(self.last.as_mut().expect("it is there")),
            // What began and was void carried nothing out.
            generation if Some(generation) > last && last.is_some() => {
                Err(NodeRefusal::NotTaken { now })
            }
            _ => Err(NodeRefusal::OldGeneration { now }),
        };
        let told = seat.and_then(|seat| match seat.member() {
            Some(member) if member == asked.member => Ok(seat),
            member => Err(NodeRefusal::OtherMember { member }),
        });
        match told {
            Ok(seat) => seat.ask(asked, waiter),
            Err(refusal) => self.told.push((waiter, Err(refusal))),
        }
    }

    /// A caller asks in the generation that goes on, whichever it is. What it is told comes by [`Node::take_told`].
    pub fn ask_here(&mut self, call: NewCall, waiter: W) {
        match self.member() {
            Some(member) => {
                let generation = self.now.generation.number;
                let asked = Asked {
                    generation,
                    member,
                    call,
                };
                self.ask(asked, waiter);
            }
            None => {
                let refusal = NodeRefusal::OtherMember { member: None };
                self.told.push((waiter, Err(refusal)));
            }
        }
    }

    /// Takes and delivers what it can, and goes on to the next generation where this one is over.
    ///
    /// # Errors
    /// Where something that was read can't be taken.
    pub fn turn(&mut self) -> Result<(), NodeFault> {
        self.now.turn()?;
        while self.now.generation.number < self.foundings.latest() {
            self.now.close();
            if !self.now.is_left() {
                break;
            }
            self.go_on()?;
            self.now.turn()?;
        }
        Ok(())
    }

    /// The generation is over: the next one begins, by the policy of the last that was not void.
    fn go_on(&mut self) -> Result<(), NodeFault> {
        let number = self.now.generation.number + 1;
        let is_void = self.now.is_void();
        let base = match &mut self.last {
            Some(last) if is_void => last,
            _ => &mut self.now,
        };
        let dump = base.dump()?;
        let (generation, dump) = self.foundings.behind(&base.generation, number, dump);
        let next = Seat::of(generation, self.name.as_deref(), Begins::With(dump))?;
        let mut over = std::mem::replace(&mut self.now, next);
        self.told.extend(over.leave(number));
        if !is_void {
            self.last = Some(over);
        }
        Ok(())
    }

    /// The cell that is to be set next: its row, number and text. None where there is none, or one is being set. Whoever asks it has to tell
    /// [`Node::was_set`] or [`Node::was_taken`].
    ///
    /// # Errors
    /// Where something that was read can't be taken.
    pub fn next_cell(&mut self) -> Result<Option<NextCell>, NodeFault> {
        self.turn()?;
        self.now.next_cell()
    }

    /// The cell that was to be set in this generation is set.
    ///
    /// # Errors
    /// Where memory ends.
    pub fn was_set(&mut self, generation: u64) -> Result<(), NodeFault> {
        if generation == self.now.generation.number {
            self.now.was_set()?;
        }
        self.turn()
    }

    /// The next cell of the node's own row of this generation was set by somebody else, to this text.
    ///
    /// # Errors
    /// Where it is no seal: another process is at this node.
    pub fn was_taken(&mut self, generation: u64, text: &[u8]) -> Result<(), NodeFault> {
        if generation == self.now.generation.number {
            self.now.was_taken(text)?;
        }
        self.turn()
    }

    /// What callers are told since this was asked last.
    pub fn take_told(&mut self) -> Vec<(W, Reply)> {
        let now = self.foundings.latest();
        let seats = self.last.iter_mut().chain([&mut self.now]);
        let told = seats.flat_map(|seat| seat.take_told(now));
        self.told.extend(told);
        std::mem::take(&mut self.told)
    }

    /// What the node is doing.
    pub fn phase(&self) -> Phase {
        match self.now.phase() {
            Phase::Serves if self.now.generation.number < self.foundings.latest() => Phase::Ends,
            phase => phase,
        }
    }

    /// For whom calls wait.
    pub fn waits(&mut self) -> Waits {
        self.now.waits()
    }

    /// How many messages of each member of this generation were taken; of the node's own, how many it sent.
    pub fn taken(&mut self) -> Vec<u64> {
        self.now.taken()
    }

    /// How many cells are left of the node's own row; none where it has no row.
    pub fn cells_left(&self) -> Option<u64> {
        self.now.cells_left()
    }

    /// The rows of this generation that have not ended, as far as they were read: of others, where the own one has.
    pub fn not_sealed(&self) -> Vec<u32> {
        self.now.not_sealed()
    }

    /// How many records the history of a generation has: of this one, or the last; none of any other.
    pub fn history_length(&mut self, generation: u64) -> Option<u64> {
        Some(self.seat(generation)?.history_length())
    }

    /// The records of these numbers, from 1 on, which the history of a generation has: of this one, or the last.
    pub fn records(&mut self, generation: u64, numbers: Range<u64>) -> Vec<String> {
        let seat = self.seat(generation);
        seat.map_or_else(Vec::new, |seat| seat.records(numbers))
    }

    fn seat(&mut self, generation: u64) -> Option<&mut Seat<W>> {
        let mut seats = self.last.iter_mut().chain([&mut self.now]);
        seats.find(|seat| seat.generation.number == generation)
    }

    /// Whether the dump by which this generation begins was delivered to its end.
    pub fn has_begun(&self) -> bool {
        self.now.is_shown()
    }

    /// The commands that make the policy that is shown, and the generation that has it: this one, or the last, where this one's dump was not delivered
    /// to its end. None where neither is.
    ///
    /// # Errors
    /// Where memory ends.
    pub fn dump(&mut self) -> Result<Option<(&Generation, Vec<String>)>, NodeFault> {
        let Some(seat) = self.shown() else {
            return Ok(None);
        };
        let dump = seat.dump()?;
        Ok(Some((&seat.generation, dump)))
    }

    /// The generation whose policy is shown; none where nothing is shown yet.
    pub fn shown_generation(&mut self) -> Option<&Generation> {
        self.shown().map(|seat| &seat.generation)
    }

    /// The last messages of the rows of this generation, in the order of their stamps.
    pub fn messages(&mut self) -> Vec<RecentMessage> {
        self.now.messages()
    }

    /// Up to where what is shown is right; none where nothing is shown yet.
    pub fn shown_at(&mut self) -> Option<ShownAt> {
        self.shown().map(Seat::shown_at)
    }

    /// What these questions are told by the policy that is shown; none where nothing is shown yet.
    pub fn query(&mut self, queries: &[Query]) -> Option<Shown> {
        self.shown()?.query(queries)
    }

    fn shown(&mut self) -> Option<&mut Seat<W>> {
        let mut seats = [&mut self.now].into_iter().chain(self.last.as_mut());
        seats.find_map(|seat| seat.is_shown().then_some(seat))
    }
}
