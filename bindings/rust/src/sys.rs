//! What include/fochillun.h declares.
#[cfg(feature = "member")]
use crate::member::{Member, Waiting};
#[cfg(feature = "policy")]
use crate::monitor::Monitor;
use crate::place::Place;

pub(crate) const DONE: u32 = 0;
pub(crate) const SHORT_BUFFER: u32 = 42;
pub(crate) const NO_MEMORY: u32 = 43;
pub(crate) const GRANTED: u32 = 50;
pub(crate) const REFUSED: u32 = 51;

#[cfg(feature = "policy")]
type Policy = Place<Monitor>;
#[cfg(feature = "member")]
type OfMember = Place<Member>;

#[cfg(feature = "policy")]
unsafe extern "C" {
    pub(crate) fn policy_open(
        place: &mut Policy,
        founding: *const u8,
        founding_length: usize,
    ) -> u32;
    pub(crate) fn policy_apply(
        place: &mut Policy,
        command: *const u8,
        command_length: usize,
        out: *mut u8,
        out_length: usize,
        written: &mut usize,
    ) -> u32;
    pub(crate) fn policy_answer(
        place: &mut Policy,
        out: *mut u8,
        out_length: usize,
        written: &mut usize,
    ) -> u32;
    pub(crate) fn policy_check(
        place: &mut Policy,
        session: *const u8,
        session_length: usize,
        operation: *const u8,
        operation_length: usize,
        object: *const u8,
        object_length: usize,
    ) -> u32;
    pub(crate) fn policy_subjects(
        place: &mut Policy,
        operation: *const u8,
        operation_length: usize,
        object: *const u8,
        object_length: usize,
        out: *mut u8,
        out_length: usize,
        written: &mut usize,
    ) -> u32;
    pub(crate) fn policy_explain(
        place: &mut Policy,
        command: *const u8,
        command_length: usize,
        out: *mut u8,
        out_length: usize,
        written: &mut usize,
    ) -> u32;
    pub(crate) fn policy_dump(
        place: &mut Policy,
        out: *mut u8,
        out_length: usize,
        written: &mut usize,
    ) -> u32;
    pub(crate) fn policy_close(place: &mut Policy) -> u32;
}

#[cfg(feature = "member")]
unsafe extern "C" {
    pub(crate) fn member_open(
        place: &mut OfMember,
        founding: *const u8,
        founding_length: usize,
        number: u32,
    ) -> u32;
    pub(crate) fn member_observe(
        place: &mut OfMember,
        founding: *const u8,
        founding_length: usize,
        number: u32,
    ) -> u32;
    pub(crate) fn member_submit(
        place: &mut OfMember,
        caller: u32,
        serial: u32,
        command: *const u8,
        command_length: usize,
        told: &mut u64,
    ) -> u32;
    pub(crate) fn member_submit_batch(
        place: &mut OfMember,
        caller: u32,
        serial: u32,
        commands: *const u8,
        commands_length: usize,
        told: &mut u64,
    ) -> u32;
    pub(crate) fn member_receive(
        place: &mut OfMember,
        from: u32,
        number: u32,
        message: *const u8,
        message_length: usize,
        told: &mut u64,
    ) -> u32;
    pub(crate) fn member_take_own(
        place: &mut OfMember,
        number: u32,
        message: *const u8,
        message_length: usize,
        told: &mut u64,
    ) -> u32;
    pub(crate) fn member_deliver(place: &mut OfMember, told: &mut u64) -> u32;
    pub(crate) fn member_message(
        place: &mut OfMember,
        number: usize,
        out: *mut u8,
        out_length: usize,
        written: &mut usize,
    ) -> u32;
    pub(crate) fn member_record(
        place: &mut OfMember,
        number: usize,
        out: *mut u8,
        out_length: usize,
        written: &mut usize,
    ) -> u32;
    pub(crate) fn member_next_submit(
        place: &mut OfMember,
        caller: u32,
        serial: u32,
        command: *const u8,
        command_length: usize,
        out: *mut u8,
        out_length: usize,
        written: &mut usize,
    ) -> u32;
    pub(crate) fn member_next_submit_batch(
        place: &mut OfMember,
        caller: u32,
        serial: u32,
        commands: *const u8,
        commands_length: usize,
        out: *mut u8,
        out_length: usize,
        written: &mut usize,
    ) -> u32;
    pub(crate) fn member_next_answer(
        place: &mut OfMember,
        from: u32,
        number: u32,
        message: *const u8,
        message_length: usize,
        out: *mut u8,
        out_length: usize,
        written: &mut usize,
    ) -> u32;
    pub(crate) fn member_dump(
        place: &mut OfMember,
        out: *mut u8,
        out_length: usize,
        written: &mut usize,
    ) -> u32;
    pub(crate) fn member_review(
        place: &mut OfMember,
        command: *const u8,
        command_length: usize,
        out: *mut u8,
        out_length: usize,
        written: &mut usize,
    ) -> u32;
    pub(crate) fn member_subjects(
        place: &mut OfMember,
        operation: *const u8,
        operation_length: usize,
        object: *const u8,
        object_length: usize,
        out: *mut u8,
        out_length: usize,
        written: &mut usize,
    ) -> u32;
    pub(crate) fn member_read(place: &mut OfMember, from: u32, told: &mut u64) -> u32;
    pub(crate) fn member_next_serial(place: &mut OfMember, caller: u32, told: &mut u64) -> u32;
    pub(crate) fn member_waits(place: &mut OfMember, waiting: &mut Waiting) -> u32;
    pub(crate) fn member_check(
        place: &mut OfMember,
        session: *const u8,
        session_length: usize,
        operation: *const u8,
        operation_length: usize,
        object: *const u8,
        object_length: usize,
        told: &mut u64,
    ) -> u32;
    pub(crate) fn member_close(place: &mut OfMember) -> u32;
}
