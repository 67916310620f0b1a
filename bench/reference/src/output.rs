//! The output lines: compact JSON with keys in byte order. Names need no escapes.

/// Writing into a vector cannot fail.
macro_rules! put {
    ($text:expr, $($part:tt)*) => {
        write!($text, $($part)*).expect("a vector takes all bytes")
    };
}

pub mod alone;
mod commands;

use crate::answer::{Answer, Denial};
use crate::command::Command;
use crate::event::LineRefusal;
use crate::name::Name;
use crate::world::{EventRefusal, Outcome, Record, Stamp};
use std::fmt;
use std::io::Write;

/// The line for what became of an event.
pub fn write_outcome(text: &mut Vec<u8>, line: u64, outcome: &Outcome) {
    match outcome {
        Outcome::Submitted(stamp) => put!(text, "{{\"line\":{line},\"stamp\":{stamp}}}\n"),
        Outcome::Received(None) => put!(text, "{{\"acknowledged\":null,\"line\":{line}}}\n"),
        Outcome::Received(Some(stamp)) => put!(text, "{{\"acknowledged\":{stamp},\"line\":{line}}}\n"),
        Outcome::Delivered(None) => put!(text, "{{\"answer\":null,\"line\":{line}}}\n"),
        Outcome::Delivered(Some(Record { stamp, caller, serial, answer })) => {
            text.extend_from_slice(b"{\"answer\":");
            write_answer(text, answer);
            put!(text, ",\"caller\":{caller},\"line\":{line},\"serial\":{serial},\"stamp\":{stamp}}}\n");
        }
    }
}

/// A place is written where it is not 0.
impl fmt::Display for Stamp {
    fn fmt(&self, formatter: &mut fmt::Formatter) -> fmt::Result {
        match self {
            Stamp { clock, member, place: 0 } => write!(formatter, "[{clock},{member}]"),
            Stamp { clock, member, place } => write!(formatter, "[{clock},{member},{place}]"),
        }
    }
}

/// The line for a client's answer.
pub fn write_reply(text: &mut Vec<u8>, line: u64, answer: &Answer) {
    text.extend_from_slice(b"{\"answer\":");
    write_answer(text, answer);
    put!(text, ",\"line\":{line}}}\n");
}

/// The line for an event that was refused.
pub fn write_event_refusal(text: &mut Vec<u8>, line: u64, refusal: EventRefusal) {
    match refusal {
        EventRefusal::Repeat { expected } => {
            put!(text, "{{\"expected\":{expected},\"line\":{line},\"refused\":\"Repeat\"}}\n")
        }
        EventRefusal::Gap { expected } => {
            put!(text, "{{\"expected\":{expected},\"line\":{line},\"refused\":\"Gap\"}}\n")
        }
        EventRefusal::BadSerial { next } => {
            put!(text, "{{\"line\":{line},\"next\":{next},\"refused\":\"BadSerial\"}}\n")
        }
        _ => put!(text, "{{\"line\":{line},\"refused\":\"{refusal:?}\"}}\n"),
    }
}

/// The line for a line that is no event. The word is the refusal's name.
pub fn write_line_refusal(text: &mut Vec<u8>, line: u64, refusal: LineRefusal) {
    put!(text, "{{\"line\":{line},\"refused\":\"{refusal:?}\"}}\n");
}

fn write_answer(text: &mut Vec<u8>, answer: &Answer) {
    match answer {
        Answer::Done => text.extend_from_slice(b"\"Done\""),
        Answer::Granted => text.extend_from_slice(b"\"Granted\""),
        Answer::Refused => text.extend_from_slice(b"\"Refused\""),
        Answer::Names(names) => {
            text.extend_from_slice(b"{\"names\":");
            write_list(text, names, write_name);
            text.push(b'}');
        }
        Answer::Permissions(permissions) => {
            text.extend_from_slice(b"{\"permissions\":");
            write_list(text, permissions, |text, (operation, object)| {
                write_list(text, &[operation, object], |text, name| write_name(text, name));
            });
            text.push(b'}');
        }
        Answer::Count(count) => put!(text, "{{\"count\":{count}}}"),
        Answer::Denied(denial) => write_denial(text, *denial),
    }
}

fn write_denial(text: &mut Vec<u8>, denial: Denial) {
    put!(text, "{{\"denied\":\"{denial:?}\",\"number\":{}}}", denial.number());
}

fn write_list<T>(text: &mut Vec<u8>, items: &[T], write_item: impl Fn(&mut Vec<u8>, &T)) {
    text.push(b'[');
    for (place, item) in items.iter().enumerate() {
        if place > 0 {
            text.push(b',');
        }
        write_item(text, item);
    }
    text.push(b']');
}

fn write_name(text: &mut Vec<u8>, name: &Name) {
    text.push(b'"');
    text.extend_from_slice(name.as_str().as_bytes());
    text.push(b'"');
}

pub fn command_length(command: &Command) -> usize {
    let mut text = Vec::new();
    commands::write_command(&mut text, command);
    text.len()
}
