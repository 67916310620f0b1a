//! One member of a group.
use crate::check::verdict;
use crate::errors::{CheckError, DumpError, MemberError, OpenError, RestoreError, SubjectsError};
use crate::place::{Held, Place};
use crate::subjects::Subjects;
use crate::sys;
use crate::sys::DONE;
use crate::text::{buffer, written_by};
use std::fmt;

/// One member of a group. It is ended, and its memory given back, when it is dropped.
///
/// A message is taken by each other member, and acknowledged there. So that nothing that was told is lost with a process, set each
/// message in the member's row first: ask `next_submit`, or before a receipt `next_answer`; set what it gives, take it by `take_own`,
/// and only then `receive`. Then [`Member::restore`] makes the member anew. What a group is owed stands in docs/EMBEDDING.md.
///
/// Two members, of which each brings what the other sent:
///
/// ```
/// use fochillun::Member;
///
/// let founding = b"version = 1\nmembers = 2\noperations = []\nobjects = []\npermissions = []\n";
/// let (mut one, mut two) = (Member::open(founding, 1)?, Member::open(founding, 2)?);
/// let sent = one.submit(0, 0, r#"{"name":"AddUser","user":"ann"}"#)?;
/// let acknowledged = two.receive(1, 1, &one.message(sent as usize)?)?;
/// assert_eq!(two.deliver()?, Some(1));
/// assert_eq!(one.deliver()?, None);
/// one.receive(2, 1, &two.message(acknowledged.unwrap() as usize)?)?;
/// assert_eq!(one.deliver()?, Some(1));
/// assert_eq!(one.record(1)?, two.record(1)?);
/// # Ok::<(), Box<dyn std::error::Error>>(())
/// ```
///
/// It may be moved to another thread, and is used by one at a time:
///
/// ```compile_fail,E0277
/// fn shared<T: Sync>() {}
/// shared::<fochillun::Member>();
/// ```
pub struct Member {
    place: Place<Member>,
    text: Vec<u8>,
}

/// The least command that a member holds back, and of whom it waits for a message with a greater stamp.
#[repr(C)]
#[derive(Clone, Copy, Debug, Default, PartialEq, Eq)]
pub struct Waiting {
    /// The stamp of its message.
    pub clock: u64,
    pub member: u32,
    /// Its place in that message, from 0 on.
    pub place: u32,
    /// A bit for each member that it waits for: 1 for member 1, 2 for member 2, 4 for member 3, and so on.
    pub awaited: u32,
}

impl Held for Member {
    const CLOSE: unsafe extern "C" fn(&mut Place<Member>) -> u32 = sys::member_close;
}

// SAFETY of each call below: the place is lent to it alone, and is full but for `member_open` and `member_observe`; no two of the slices overlap, and none
// is without an address.
impl Member {
    /// Founds the member of this number, from 1 on, with what a founding file says.
    pub fn open(founding: &[u8], number: u32) -> Result<Member, OpenError> {
        let place = Place::filled_by(|place| unsafe {
            sys::member_open(place, founding.as_ptr(), founding.len(), number)
        });
        Ok(Member {
            place: place.map_err(OpenError::of)?,
            text: buffer(),
        })
    }

    /// Founds the member of this number as one that only observes, beside the process that acts as that member: it sends nothing. Take
    /// what stands in the member's row by `take_own`, bring it what the others sent by `receive`, and `deliver`; it shows what the member
    /// would. What it would have to acknowledge it refuses as `NotYet`, until the member's own row has a later message; submits, and what
    /// they would send, as `Observes`.
    ///
    /// ```
    /// use fochillun::{Member, MemberError};
    ///
    /// let founding = b"version = 1\nmembers = 2\noperations = []\nobjects = []\npermissions = []\n";
    /// let (mut one, mut two) = (Member::open(founding, 1)?, Member::open(founding, 2)?);
    /// let mut observer = Member::observe(founding, 2)?;
    /// one.submit(0, 0, r#"{"name":"AddUser","user":"ann"}"#)?;
    /// let sent = one.message(1)?;
    /// assert_eq!(observer.receive(1, 1, &sent), Err(MemberError::NotYet));
    /// two.receive(1, 1, &sent)?;
    /// observer.take_own(1, &two.message(1)?)?;
    /// observer.receive(1, 1, &sent)?;
    /// assert_eq!(observer.deliver()?, two.deliver()?);
    /// assert_eq!(observer.record(1)?, two.record(1)?);
    /// # Ok::<(), Box<dyn std::error::Error>>(())
    /// ```
    pub fn observe(founding: &[u8], number: u32) -> Result<Member, OpenError> {
        let place = Place::filled_by(|place| unsafe {
            sys::member_observe(place, founding.as_ptr(), founding.len(), number)
        });
        Ok(Member {
            place: place.map_err(OpenError::of)?,
            text: buffer(),
        })
    }

    /// The member that has taken these messages of its row, in order: all that it ever sent.
    pub fn restore(
        founding: &[u8],
        number: u32,
        messages: impl IntoIterator<Item: AsRef<str>>,
    ) -> Result<Member, RestoreError> {
        let mut member = Member::open(founding, number).map_err(RestoreError::Open)?;
        for (number, message) in (1..).zip(messages) {
            let taken = member.take_own(number, message.as_ref());
            taken.map_err(|error| RestoreError::TakeOwn { number, error })?;
        }
        Ok(member)
    }

    /// Submits the command of a JSON object as that of a caller, whose commands at this member have the serials 0, 1 and so on. Gives
    /// the number of the message that sends it.
    pub fn submit(&mut self, caller: u32, serial: u32, command: &str) -> Result<u64, MemberError> {
        self.step(|place, told| unsafe {
            sys::member_submit(place, caller, serial, command.as_ptr(), command.len(), told)
        })
    }

    /// Submits the commands of a JSON array together, in one message, of which the first has this serial.
    pub fn submit_batch(
        &mut self,
        caller: u32,
        serial: u32,
        commands: &str,
    ) -> Result<u64, MemberError> {
        self.step(|place, told| unsafe {
            sys::member_submit_batch(
                place,
                caller,
                serial,
                commands.as_ptr(),
                commands.len(),
                told,
            )
        })
    }

    /// Receives message `number` of member `from`. Gives the number of the acknowledgement that was sent, where one is due.
    pub fn receive(
        &mut self,
        from: u32,
        number: u32,
        message: &str,
    ) -> Result<Option<u64>, MemberError> {
        let told = self.step(|place, told| unsafe {
            sys::member_receive(place, from, number, message.as_ptr(), message.len(), told)
        });
        told.map(unless_none)
    }

    /// Takes message `number` of the member's own row: one that it sent before it was lost, or that was set there to be taken. Gives
    /// its number.
    pub fn take_own(&mut self, number: u32, message: &str) -> Result<u64, MemberError> {
        self.step(|place, told| unsafe {
            sys::member_take_own(place, number, message.as_ptr(), message.len(), told)
        })
    }

    /// Delivers the command that is due. Gives the number of its record, where one was due.
    pub fn deliver(&mut self) -> Result<Option<u64>, MemberError> {
        let told = self.step(|place, told| unsafe { sys::member_deliver(place, told) });
        told.map(unless_none)
    }

    /// The message of this number, from 1 on, that the member sent.
    pub fn message(&mut self, number: usize) -> Result<String, MemberError> {
        self.told(|place, out, written| unsafe {
            sys::member_message(place, number, out.as_mut_ptr(), out.len(), written)
        })
    }

    /// The record of this number, from 1 on, of the member's history: a command that was delivered, and its answer.
    pub fn record(&mut self, number: usize) -> Result<String, MemberError> {
        self.told(|place, out, written| unsafe {
            sys::member_record(place, number, out.as_mut_ptr(), out.len(), written)
        })
    }

    /// The message by which `submit` would send this command. Taken by `take_own` it leaves what the submit leaves.
    pub fn next_submit(
        &mut self,
        caller: u32,
        serial: u32,
        command: &str,
    ) -> Result<String, MemberError> {
        let (text, length) = (command.as_ptr(), command.len());
        self.told(|place, out, written| unsafe {
            let (at, room) = (out.as_mut_ptr(), out.len());
            sys::member_next_submit(place, caller, serial, text, length, at, room, written)
        })
    }

    /// As `next_submit`, of commands that are sent together.
    pub fn next_submit_batch(
        &mut self,
        caller: u32,
        serial: u32,
        commands: &str,
    ) -> Result<String, MemberError> {
        let (text, length) = (commands.as_ptr(), commands.len());
        self.told(|place, out, written| unsafe {
            let (at, room) = (out.as_mut_ptr(), out.len());
            sys::member_next_submit_batch(place, caller, serial, text, length, at, room, written)
        })
    }

    /// The acknowledgement that this message wants, where it wants one, to be taken by `take_own` before the message is received, which
    /// then sends nothing.
    pub fn next_answer(
        &mut self,
        from: u32,
        number: u32,
        message: &str,
    ) -> Result<Option<String>, MemberError> {
        let (text, length) = (message.as_ptr(), message.len());
        let told = self.told(|place, out, written| unsafe {
            let (at, room) = (out.as_mut_ptr(), out.len());
            sys::member_next_answer(place, from, number, text, length, at, room, written)
        });
        told.map(|text| Some(text).filter(|text| !text.is_empty()))
    }

    /// The client lines that make the member's policy, as `Monitor::dump` tells them.
    pub fn dump(&mut self) -> Result<String, DumpError> {
        let place = &mut self.place;
        let dump = written_by(&mut self.text, |out, written| unsafe {
            sys::member_dump(place, out.as_mut_ptr(), out.len(), written)
        });
        dump.map(str::to_owned).map_err(DumpError::of)
    }

    /// The text of the answer that a review, or CheckAccess, has by the policy that the member's history left, as `Monitor::apply` gives
    /// it: a denial too. A review takes time and memory in proportion to the policy; `check` is the quicker question.
    pub fn review(&mut self, command: &str) -> Result<String, MemberError> {
        let (text, length) = (command.as_ptr(), command.len());
        self.told(|place, out, written| unsafe {
            sys::member_review(place, text, length, out.as_mut_ptr(), out.len(), written)
        })
    }

    /// The sessions and the users that may perform the operation on the object by the policy that the member's history left, which may
    /// be behind that of other members. It takes time and memory in proportion to the policy; `check` asks of one session.
    pub fn subjects(&mut self, operation: &str, object: &str) -> Result<Subjects, SubjectsError> {
        let mut text = vec![0; 4096];
        let told = written_by(&mut text, |out, written| unsafe {
            sys::member_subjects(
                &mut self.place,
                operation.as_ptr(),
                operation.len(),
                object.as_ptr(),
                object.len(),
                out.as_mut_ptr(),
                out.len(),
                written,
            )
        });
        told.map(Subjects::of).map_err(SubjectsError::of)
    }

    /// How many messages of member `from` were received.
    pub fn read(&mut self, from: u32) -> u64 {
        let mut told = 0;
        unsafe { sys::member_read(&mut self.place, from, &mut told) };
        told
    }

    /// The serial of a caller's next command at this member.
    pub fn next_serial(&mut self, caller: u32) -> u64 {
        let mut told = 0;
        unsafe { sys::member_next_serial(&mut self.place, caller, &mut told) };
        told
    }

    /// The least command that is held back, where one is.
    pub fn waits(&mut self) -> Option<Waiting> {
        let mut waiting = Waiting::default();
        unsafe { sys::member_waits(&mut self.place, &mut waiting) };
        Some(waiting).filter(|waiting| waiting.member != 0)
    }

    /// Whether the session may perform the operation on the object by the policy that the member's history left, which may be behind
    /// that of other members; and how many records that history has. It takes no memory.
    pub fn check(
        &mut self,
        session: &str,
        operation: &str,
        object: &str,
    ) -> (Result<bool, CheckError>, u64) {
        let mut records = 0;
        let status = unsafe {
            sys::member_check(
                &mut self.place,
                session.as_ptr(),
                session.len(),
                operation.as_ptr(),
                operation.len(),
                object.as_ptr(),
                object.len(),
                &mut records,
            )
        };
        (verdict(status), records)
    }

    /// What a step tells.
    fn step(
        &mut self,
        call: impl FnOnce(&mut Place<Member>, &mut u64) -> u32,
    ) -> Result<u64, MemberError> {
        let mut told = 0;
        match call(&mut self.place, &mut told) {
            DONE => Ok(told),
            status => Err(MemberError::of(status, Some(told))),
        }
    }

    /// A text of its own, since it is kept in a row as a rule.
    fn told(
        &mut self,
        mut call: impl FnMut(&mut Place<Member>, &mut [u8], &mut usize) -> u32,
    ) -> Result<String, MemberError> {
        let place = &mut self.place;
        let text = written_by(&mut self.text, |out, written| call(place, out, written));
        text.map(str::to_owned)
            .map_err(|status| MemberError::of(status, None))
    }
}

/// Messages and records are counted from 1 on: 0 is none.
fn unless_none(number: u64) -> Option<u64> {
    Some(number).filter(|number| *number != 0)
}

impl fmt::Debug for Member {
    fn fmt(&self, f: &mut fmt::Formatter<'_>) -> fmt::Result {
        f.debug_struct("Member").finish_non_exhaustive()
    }
}
