//! A schedule line as an event.

mod asked;
mod commands;
mod fields;

use crate::command::Command;
use crate::json;
use crate::limits::LINE_BYTES;
pub use asked::{Asked, Brought, read_asked, read_called};
use fields::Fields;

pub enum Event {
    Submit {
        at: u32,
        caller: u32,
        serial: u32,
        command: Command,
    },
    /// Commands of one caller in one message. The serial is that of the first.
    Batch {
        at: u32,
        caller: u32,
        serial: u32,
        commands: Vec<Command>,
    },
    Receive {
        at: u32,
        from: u32,
        number: u32,
    },
    Deliver {
        at: u32,
    },
}

#[derive(Clone, Copy, Debug, PartialEq, Eq)]
pub enum LineRefusal {
    TooLong,
    NotJson,
    NotObject,
    UnknownWord,
    MissingField,
    WrongKind,
    BadName,
    ExtraField,
}

/// The object of a line without its line feed.
fn read_object(line: &[u8], longest: usize) -> Result<json::Object<'_>, LineRefusal> {
    if line.len() > longest {
        return Err(LineRefusal::TooLong);
    }
    match json::read(line).map_err(|_| LineRefusal::NotJson)? {
        json::Value::Object(object) => Ok(object),
        _ => Err(LineRefusal::NotObject),
    }
}

/// Reads a client's line: the member that is asked, and the command.
pub fn read_client(line: &[u8]) -> Result<(u32, Command), LineRefusal> {
    let object = read_object(line, LINE_BYTES)?;
    let mut fields = Fields::new(&object);
    let (at, command) = (fields.number("at")?, fields.object("command")?);
    fields.end()?;
    Ok((at, commands::read_command(command)?))
}

/// Reads a line of a schedule. The outer object is looked at whole before the commands in it.
pub fn read_line(line: &[u8]) -> Result<Event, LineRefusal> {
    let object = read_object(line, LINE_BYTES)?;
    let mut fields = Fields::new(&object);
    match fields.text("do")? {
        "submit" => {
            let (at, caller, serial) = (fields.number("at")?, fields.number("caller")?, fields.number("serial")?);
            let command = fields.object("command")?;
            fields.end()?;
            Ok(Event::Submit { at, caller, serial, command: commands::read_command(command)? })
        }
        "batch" => {
            let (at, caller, serial) = (fields.number("at")?, fields.number("caller")?, fields.number("serial")?);
            let commands = fields.objects("commands")?;
            fields.end()?;
            let commands = commands.into_iter().map(commands::read_command).collect::<Result<_, _>>()?;
            Ok(Event::Batch { at, caller, serial, commands })
        }
        "receive" => {
            let (at, from, number) = (fields.number("at")?, fields.number("from")?, fields.number("number")?);
            fields.end()?;
            Ok(Event::Receive { at, from, number })
        }
        "deliver" => {
            let at = fields.number("at")?;
            fields.end()?;
            Ok(Event::Deliver { at })
        }
        _ => Err(LineRefusal::UnknownWord),
    }
}
