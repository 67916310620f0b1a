//! What a node is in one generation: a member, or one that follows it.
use super::shown::{Query, Shown, ShownAt};
use super::{Asked, NextCell, NodeFault, NodeRefusal, Phase, Reply};
use crate::generation::Generation;
use crate::row_member::{
    self, Begins, Left, MemberFault, RecentMessage, RowMember, RowObserver, Waits,
};
use rows::cell::{Cell, Chain, Sent};
use std::ops::Range;

#[derive(Debug)]
pub(super) struct Seat<W> {
    pub(super) generation: Generation,
    place: Place<W>,
}

#[derive(Debug)]
enum Place<W> {
    /// A member whose own row is not read yet, or is to be read again. Calls are kept meanwhile.
    Enters {
        member: u32,
        left: Left<W>,
        asked: Vec<(Asked, W)>,
    },
    Acts(Box<RowMember<W>>),
    Follows(Box<RowObserver>),
}

impl<W> Place<W> {
    fn enters(member: u32, left: Left<W>) -> Place<W> {
        Place::Enters {
            member,
            left,
            asked: Vec::new(),
        }
    }

    /// Takes it, and leaves what nothing is asked of.
    fn take(&mut self) -> Place<W> {
        std::mem::replace(self, Place::enters(0, Left::of(Begins::Empty)))
    }
}

/// Whose row is followed where the node has none.
const FOLLOWED: u32 = 1;

impl<W> Seat<W> {
    pub(super) fn of(
        generation: Generation,
        name: Option<&str>,
        begins: Begins,
    ) -> Result<Seat<W>, NodeFault> {
        let number = generation.number;
        let place = match name.and_then(|name| generation.member_of(name)) {
            Some(member) => Place::enters(member, Left::of(begins)),
            None => {
                let observer = RowObserver::of(&generation, FOLLOWED, begins);
                Place::Follows(Box::new(observer.map_err(|fault| fault_in(number, fault))?))
            }
        };
        Ok(Seat { generation, place })
    }

    fn fault(&self, fault: MemberFault) -> NodeFault {
        fault_in(self.generation.number, fault)
    }

    pub(super) fn member(&self) -> Option<u32> {
        match &self.place {
            Place::Enters { member, .. } => Some(*member),
            Place::Acts(member) => Some(member.number()),
            Place::Follows(_) => None,
        }
    }

    pub(super) fn enters(&self) -> Option<u32> {
        match &self.place {
            Place::Enters { member, .. } => Some(*member),
            _ => None,
        }
    }

    /// The own row was read. Gives the calls that were asked meanwhile.
    pub(super) fn enter(
        &mut self,
        writer: &str,
        chain: Chain,
        cells: &[Cell],
    ) -> Result<Vec<(Asked, W)>, NodeFault> {
        let (number, left, asked) = match self.place.take() {
            Place::Enters {
                member,
                left,
                asked,
            } => (member, left, asked),
            place => {
                self.place = place;
                return Ok(Vec::new());
            }
        };
        let (begins, writer) = (left.begins.clone(), writer.to_owned());
        let made = RowMember::restore(&self.generation, number, begins, writer, chain, cells);
        let mut made = made.map_err(|fault| self.fault(fault))?;
        made.go_on_with(left);
        self.place = Place::Acts(Box::new(made));
        Ok(asked)
    }

    pub(super) fn followed(&self) -> Vec<u32> {
        let own = self.member();
        let members = 1..=self.generation.members();
        members.filter(|member| Some(*member) != own).collect()
    }

    pub(super) fn put_cell(&mut self, member: u32, cell: Sent) -> Result<(), NodeFault> {
        let put = match &mut self.place {
            Place::Enters { .. } => unreachable!("the own row is read first"),
            Place::Acts(acting) => acting.put_cell(member, cell),
            Place::Follows(observer) => observer.put_cell(member, cell),
        };
        put.map_err(|fault| self.fault(fault))
    }

    /// Of a call of the node's own member.
    pub(super) fn ask(&mut self, asked: Asked, waiter: W) {
        match &mut self.place {
            Place::Enters { asked: kept, .. } => kept.push((asked, waiter)),
            Place::Acts(member) => member.ask(asked.call, waiter),
            Place::Follows(_) => unreachable!("who follows is no member"),
        }
    }

    pub(super) fn turn(&mut self) -> Result<(), NodeFault> {
        let turned = match &mut self.place {
            Place::Enters { .. } => Ok(()),
            Place::Acts(member) => member.turn(),
            Place::Follows(observer) => observer.turn(),
        };
        turned.map_err(|fault| self.fault(fault))
    }

    /// The next generation was proposed.
    pub(super) fn close(&mut self) {
        if let Place::Acts(member) = &mut self.place {
            member.close();
        }
    }

    pub(super) fn is_void(&self) -> bool {
        match &self.place {
            Place::Enters { .. } => false,
            Place::Acts(member) => member.is_void(),
            Place::Follows(observer) => observer.is_void(),
        }
    }

    /// Whether nothing of this generation is to come.
    pub(super) fn is_left(&mut self) -> bool {
        let is_over = match &mut self.place {
            Place::Enters { .. } => false,
            Place::Acts(member) => member.is_over(),
            Place::Follows(observer) => observer.is_over(),
        };
        is_over || self.is_void()
    }

    /// The node goes on to the next generation. Gives what callers are told.
    pub(super) fn leave(&mut self, now: u64) -> Vec<(W, Reply)> {
        if let Place::Acts(member) = &mut self.place {
            member.leave();
        }
        self.take_told(now)
    }

    pub(super) fn next_cell(&mut self) -> Result<Option<NextCell>, NodeFault> {
        let Place::Acts(member) = &mut self.place else {
            return Ok(None);
        };
        let next = member.next_cell();
        let row = member.chain().row().clone();
        let commands = member.commands_being_set();
        let next = next.map_err(|fault| self.fault(fault))?;
        Ok(next.map(|(number, text)| NextCell {
            generation: self.generation.number,
            row,
            number,
            text,
            commands,
        }))
    }

    pub(super) fn was_set(&mut self) -> Result<(), NodeFault> {
        self.told_of_set(RowMember::was_set)
    }

    pub(super) fn was_taken(&mut self, text: &[u8]) -> Result<(), NodeFault> {
        self.told_of_set(|member| member.was_taken(text))?;
        self.place = match self.place.take() {
            Place::Acts(member) if member.is_beside_its_row() => {
                Place::enters(member.number(), member.into_left())
            }
            place => place,
        };
        Ok(())
    }

    fn told_of_set(
        &mut self,
        tell: impl FnOnce(&mut RowMember<W>) -> Result<(), MemberFault>,
    ) -> Result<(), NodeFault> {
        match &mut self.place {
            Place::Acts(member) => tell(member).map_err(|fault| self.fault(fault)),
            _ => Ok(()),
        }
    }

    /// What callers are told; `now` is the generation to which they may turn.
    pub(super) fn take_told(&mut self, now: u64) -> Vec<(W, Reply)> {
        let (number, told) = match &mut self.place {
            Place::Acts(member) => (member.number(), member.take_told()),
            Place::Enters { member, left, .. } => (*member, std::mem::take(&mut left.told)),
            Place::Follows(_) => return Vec::new(),
        };
        let generation = self.generation.number;
        // A row may be seen to have ended before it is read what was proposed.
        let now = now.max(generation + 1);
        let answered = |records| super::Answered {
            generation,
            member: number,
            records,
        };
        let refused = |refusal| match refusal {
            row_member::Refusal::NotTaken => NodeRefusal::NotTaken { now },
            refusal => NodeRefusal::Call(refusal),
        };
        let told = told.into_iter();
        told.map(|(waiter, reply)| (waiter, reply.map(answered).map_err(refused)))
            .collect()
    }

    pub(super) fn phase(&self) -> Phase {
        match &self.place {
            Place::Follows(_) => Phase::Follows,
            Place::Acts(member) if member.is_sealed() => Phase::Ends,
            Place::Acts(member) if member.is_open() => Phase::Serves,
            _ => Phase::Begins,
        }
    }

    pub(super) fn waits(&mut self) -> Waits {
        match &mut self.place {
            Place::Enters { .. } => Waits::default(),
            Place::Acts(member) => member.waits(),
            Place::Follows(observer) => Waits {
                members: observer.taking().awaited(),
                ..Waits::default()
            },
        }
    }

    pub(super) fn taken(&mut self) -> Vec<u64> {
        match &mut self.place {
            Place::Enters { .. } => Vec::new(),
            Place::Acts(member) => member.taken(),
            Place::Follows(observer) => observer.taken(),
        }
    }

    pub(super) fn cells_left(&self) -> Option<u64> {
        match &self.place {
            Place::Acts(member) => Some(member.cells_left()),
            _ => None,
        }
    }

    pub(super) fn not_sealed(&self) -> Vec<u32> {
        match &self.place {
            Place::Acts(member) if member.is_sealed() => member.not_sealed(),
            _ => Vec::new(),
        }
    }

    /// The last messages of its rows.
    pub(super) fn messages(&mut self) -> Vec<RecentMessage> {
        let taking = self.taking();
        taking.map_or_else(Vec::new, |taking| taking.recent.messages())
    }

    pub(super) fn history_length(&mut self) -> u64 {
        self.taking().map_or(0, |taking| taking.records)
    }

    pub(super) fn records(&mut self, numbers: Range<u64>) -> Vec<String> {
        let taking = self.taking();
        taking.map_or_else(Vec::new, |taking| taking.records(numbers))
    }

    /// Whether the policy that was delivered is one that the group had.
    pub(super) fn is_shown(&self) -> bool {
        match &self.place {
            Place::Enters { .. } => false,
            Place::Acts(member) => member.is_shown(),
            Place::Follows(observer) => observer.is_shown(),
        }
    }

    /// What these questions are told by that policy, and up to where that is right.
    pub(super) fn query(&mut self, queries: &[Query]) -> Option<Shown> {
        let generation = self.generation.number;
        let taking = self.taking()?;
        Some(Shown {
            answers: queries.iter().map(|query| taking.query(query)).collect(),
            at: ShownAt {
                generation,
                stamp: taking.stamp,
            },
            records: taking.records,
        })
    }

    /// Up to where the history goes.
    pub(super) fn shown_at(&mut self) -> ShownAt {
        let stamp = self.taking().and_then(|taking| taking.stamp);
        let generation = self.generation.number;
        ShownAt { generation, stamp }
    }

    pub(super) fn dump(&mut self) -> Result<Vec<String>, NodeFault> {
        let dump = self.taking().map_or(Ok(Vec::new()), |taking| taking.dump());
        dump.map_err(|fault| self.fault(fault))
    }

    fn taking(&mut self) -> Option<&mut row_member::Taking> {
        match &mut self.place {
            Place::Enters { .. } => None,
            Place::Acts(member) => Some(member.taking()),
            Place::Follows(observer) => Some(observer.taking()),
        }
    }
}

fn fault_in(generation: u64, fault: MemberFault) -> NodeFault {
    NodeFault::Member { generation, fault }
}
