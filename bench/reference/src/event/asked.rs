//! A line that asks one thing of one member, or stands for a call on one.

use super::fields::Fields;
use super::{LineRefusal, commands, read_object};
use crate::command::Command;
use crate::json::Object;
use crate::limits;
use crate::world::{Batch, Message, Stamp};
use std::rc::Rc;

/// The last three are asked by calls alone: how many messages were taken of a member, a caller's next serial, and a check.
pub enum Asked {
    Submit(Batch),
    Next(Batch),
    Receive(Brought),
    Answer(Brought),
    Own { number: u32, message: Message },
    Deliver,
    Message { number: u32 },
    Record { number: u32 },
    Waits,
    Dump,
    Read { from: u32 },
    Serial { caller: u32 },
    Check(Command),
}

/// A message of another member.
pub struct Brought {
    pub from: u32,
    pub number: u32,
    pub message: Message,
}

/// Reads a line of one member. The outer object is looked at whole before what stands in it.
pub fn read_asked(line: &[u8]) -> Result<Asked, LineRefusal> {
    let object = read_object(line, limits::BY_LINES.line)?;
    let mut fields = Fields::new(&object);
    let word = fields.text("do")?;
    asked_by(word, fields)
}

/// Reads a line that stands for a call.
pub fn read_called(line: &[u8]) -> Result<Asked, LineRefusal> {
    let object = read_object(line, limits::BY_CALLS.line)?;
    let mut fields = Fields::new(&object);
    let word = fields.text("do")?;
    let asked = match word {
        "read" => Asked::Read { from: fields.number("from")? },
        "serial" => Asked::Serial { caller: fields.number("caller")? },
        "check" => {
            let (session, operation) = (fields.name("session")?, fields.name("operation")?);
            Asked::Check(Command::CheckAccess { session, operation, object: fields.name("object")? })
        }
        _ => return asked_by(word, fields),
    };
    fields.end()?;
    Ok(asked)
}

fn asked_by(word: &str, mut fields: Fields) -> Result<Asked, LineRefusal> {
    let asked = match word {
        "submit" => {
            let (caller, serial) = (fields.number("caller")?, fields.number("serial")?);
            let command = fields.object("command")?;
            fields.end()?;
            return Ok(Asked::Submit(Batch::of_one(caller, serial, commands::read_command(command)?)));
        }
        "batch" => return read_batch(fields).map(Asked::Submit),
        "next" => return read_batch(fields).map(Asked::Next),
        "receive" => return read_brought(fields).map(Asked::Receive),
        "answer" => return read_brought(fields).map(Asked::Answer),
        "own" => {
            let number = fields.number("number")?;
            let message = fields.object("message")?;
            fields.end()?;
            return Ok(Asked::Own { number, message: read_message(message)? });
        }
        "message" => Asked::Message { number: fields.number("number")? },
        "record" => Asked::Record { number: fields.number("number")? },
        "deliver" => Asked::Deliver,
        "waits" => Asked::Waits,
        "dump" => Asked::Dump,
        _ => return Err(LineRefusal::UnknownWord),
    };
    fields.end()?;
    Ok(asked)
}

fn read_batch(mut fields: Fields) -> Result<Batch, LineRefusal> {
    let (caller, serial) = (fields.number("caller")?, fields.number("serial")?);
    let commands = fields.objects("commands")?;
    fields.end()?;
    let commands = commands.into_iter().map(commands::read_command).collect::<Result<_, _>>()?;
    Ok(Batch { caller, serial, commands })
}

fn read_brought(mut fields: Fields) -> Result<Brought, LineRefusal> {
    let (from, number) = (fields.number("from")?, fields.number("number")?);
    let message = fields.object("message")?;
    fields.end()?;
    Ok(Brought { from, number, message: read_message(message)? })
}

/// A message: with the key `commands` it is a batch, and without an acknowledgement.
fn read_message(object: &Object) -> Result<Message, LineRefusal> {
    let mut fields = Fields::new(object);
    if !fields.has("commands") {
        let stamp = read_stamp(&mut fields)?;
        fields.end()?;
        return Ok(Message { stamp, batch: None });
    }
    let caller = fields.number("caller")?;
    let commands = fields.objects("commands")?;
    let serial = fields.number("serial")?;
    let stamp = read_stamp(&mut fields)?;
    fields.end()?;
    let commands = commands.into_iter().map(commands::read_command).collect::<Result<_, _>>()?;
    Ok(Message { stamp, batch: Some(Rc::new(Batch { caller, serial, commands })) })
}

/// The stamp of a message has no place.
fn read_stamp(fields: &mut Fields) -> Result<Stamp, LineRefusal> {
    let (clock, member) = fields.two_numbers("stamp")?;
    Ok(Stamp { clock, member, place: 0 })
}
