//! What a line of one member is answered.

use super::commands::write_command;
use super::{write_answer, write_list};
use crate::answer::Answer;
use crate::command::Command;
use crate::world::{Delivered, Message, Stamp};
use std::io::Write;

/// The text of a message.
pub fn message_text(message: &Message) -> Vec<u8> {
    let mut text = Vec::new();
    text.push(b'{');
    if let Some(batch) = &message.batch {
        put!(&mut text, "\"caller\":{},\"commands\":", batch.caller);
        write_list(&mut text, &batch.commands, write_command);
        put!(&mut text, ",\"serial\":{},", batch.serial);
    }
    put!(&mut text, "\"stamp\":{}}}", message.stamp);
    text
}

/// The line for a number: of a message that was sent or taken, or of how many there are.
pub fn write_number(text: &mut Vec<u8>, line: u64, number: u32) {
    put!(text, "{{\"line\":{line},\"number\":{number}}}\n");
}

/// The line for a receipt, with the number of the acknowledgement that was sent.
pub fn write_received(text: &mut Vec<u8>, line: u64, acknowledged: Option<u32>) {
    match acknowledged {
        None => put!(text, "{{\"acknowledged\":null,\"line\":{line}}}\n"),
        Some(number) => put!(text, "{{\"acknowledged\":{number},\"line\":{line}}}\n"),
    }
}

/// The line for a message that is told by its text, or for none.
pub fn write_message(text: &mut Vec<u8>, line: u64, message: Option<&[u8]>) {
    put!(text, "{{\"line\":{line},\"message\":");
    text.extend_from_slice(message.unwrap_or(b"null"));
    text.extend_from_slice(b"}\n");
}

/// The line for a delivery.
pub fn write_delivered(text: &mut Vec<u8>, line: u64, delivered: Option<(u32, &Delivered)>) {
    let Some((number, delivered)) = delivered else {
        put!(text, "{{\"line\":{line},\"record\":null}}\n");
        return;
    };
    put!(text, "{{\"line\":{line},\"number\":{number},");
    write_record(text, delivered);
}

/// The line for a record that was delivered before.
pub fn write_told_record(text: &mut Vec<u8>, line: u64, delivered: &Delivered) {
    put!(text, "{{\"line\":{line},");
    write_record(text, delivered);
}

/// A record as the last key of a line.
fn write_record(text: &mut Vec<u8>, delivered: &Delivered) {
    text.extend_from_slice(b"\"record\":{\"answer\":");
    write_answer(text, delivered.answer());
    put!(text, ",\"caller\":{},\"command\":", delivered.caller());
    write_command(text, delivered.command());
    put!(text, ",\"serial\":{},\"stamp\":{}}}}}\n", delivered.serial(), delivered.stamp());
}

/// The line for what the least held command waits for.
pub fn write_waits(text: &mut Vec<u8>, line: u64, waits: Option<(Stamp, u32)>) {
    match waits {
        None => put!(text, "{{\"line\":{line},\"stamp\":null,\"waits\":0}}\n"),
        Some((stamp, bits)) => put!(text, "{{\"line\":{line},\"stamp\":{stamp},\"waits\":{bits}}}\n"),
    }
}

/// The line for a check by the policy that so many records left.
pub fn write_checked(text: &mut Vec<u8>, line: u64, answer: &Answer, records: usize) {
    text.extend_from_slice(b"{\"answer\":");
    write_answer(text, answer);
    put!(text, ",\"line\":{line},\"records\":{records}}}\n");
}

/// The line for the commands that make a policy.
pub fn write_dump(text: &mut Vec<u8>, line: u64, commands: &[Command]) {
    text.extend_from_slice(b"{\"commands\":");
    write_list(text, commands, write_command);
    put!(text, ",\"line\":{line}}}\n");
}
