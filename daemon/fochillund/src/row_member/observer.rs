//! A process that follows the members of a generation and sends nothing: it takes the row of one of them, and of the others' rows what that one need
//! not acknowledge any more.
use super::fault::MemberFault;
use super::opening::{Begins, Opening};
use super::taking::Taking;
use crate::generation::Generation;
use fochillun::Member;
use rows::cell::Sent;

/// One that takes the row of a member.
#[derive(Debug)]
pub struct RowObserver {
    taking: Taking,
}

impl RowObserver {
    /// One that follows this member's row, and has taken nothing of it yet.
    ///
    /// # Errors
    /// Where the founding founds no such member.
    pub fn of(
        generation: &Generation,
        followed: u32,
        begins: Begins,
    ) -> Result<RowObserver, MemberFault> {
        let member = Member::open(generation.file.as_bytes(), followed)?;
        let opening = Opening::of(begins);
        Ok(RowObserver {
            taking: Taking::of(member, followed, generation, opening),
        })
    }

    /// The next cell of a row was read.
    ///
    /// # Errors
    /// Where it is none that may stand there.
    pub fn put_cell(&mut self, member: u32, cell: Sent) -> Result<(), MemberFault> {
        if member != self.taking.number {
            return self.taking.put(member, cell);
        }
        let (number, message) = (super::number_of(cell.number), cell.message.get());
        self.taking
            .take_own(number, message, &cell.taken, cell.dump)
    }

    /// Takes what was read and is below the followed row, and delivers what is due.
    ///
    /// # Errors
    /// Where a message can't be taken.
    pub fn turn(&mut self) -> Result<(), MemberFault> {
        self.taking.take_ready(true)?;
        while self.taking.deliver_next()?.is_some() {}
        Ok(())
    }

    /// How many messages of each member were taken.
    pub fn taken(&mut self) -> Vec<u64> {
        self.taking.taken()
    }

    /// Whether the generation ended before anybody may have sent a command in it.
    pub fn is_void(&self) -> bool {
        self.taking.is_void()
    }

    /// Whether the policy that was delivered is one that the group had: not while it has a part of the dump by which the generation begins.
    pub fn is_shown(&self) -> bool {
        self.taking.is_shown()
    }

    /// Whether all rows have ended, and all that stands in them was delivered.
    pub fn is_over(&mut self) -> bool {
        self.taking.is_over()
    }

    /// What it shows: its policy, and how far that is right.
    pub(crate) fn taking(&mut self) -> &mut Taking {
        &mut self.taking
    }
}
