//! The program's words, files, faults and statuses.

use crate::event::{self, Asked, Brought, LineRefusal};
use crate::founding::{self, Founding, FoundingRefusal};
use crate::limits::{self, LINE_BYTES, Longest};
use crate::lines::Lines;
use crate::output::{self, alone};
use crate::world::{Alone, EventRefusal, Message, World};
use std::collections::HashMap;
use std::ffi::OsString;
use std::fs::File;
use std::io::{self, BufRead, BufReader, Read, Write};
use std::os::fd::AsFd;
use std::process::ExitCode;

const HELP: &str = "\
Plays commands of role-based access control, one JSON object a line, and answers each line

Usage: reference [play FOUNDING SCHEDULE | serve FOUNDING | member FOUNDING NUMBER | called FOUNDING NUMBER]

FOUNDING is the file of the founding, or - for the sample founding.
SCHEDULE is the file of the lines, or - for standard input.
NUMBER is that of the member that takes lines, or of the one that is called, as each line says.
Without words: the same as 'play - -'.

Status: 0 the input was read to its end, 1 a fault of a file, of the founding or of the run, 2 the words are refused
";

/// How much is read at once.
const READ_BYTES: usize = 65_536;

enum Words {
    Help,
    Play { founding: String, schedule: String },
    Serve { founding: String },
    Member { founding: String, number: String, by: By },
}

/// How a member is asked.
#[derive(Clone, Copy)]
struct By {
    longest: Longest,
    read: fn(&[u8]) -> Result<Asked, LineRefusal>,
}

const BY_LINES: By = By { longest: limits::BY_LINES, read: event::read_asked };
const BY_CALLS: By = By { longest: limits::BY_CALLS, read: event::read_called };

/// What ends the program with status 1. The word in its message is the variant's name.
enum Fault {
    File(String),
    Founding(FoundingRefusal),
    NoMember(String),
    Run(RunFault),
}

#[derive(Debug)]
enum RunFault {
    Read,
    Write,
}

pub fn run(words: Vec<OsString>) -> ExitCode {
    let status = match read_words(words) {
        None => {
            eprint!("{HELP}");
            2
        }
        Some(Words::Help) => {
            print!("{HELP}");
            0
        }
        Some(Words::Play { founding, schedule }) => status_of(play(&founding, &schedule)),
        Some(Words::Serve { founding }) => status_of(serve(&founding)),
        Some(Words::Member { founding, number, by }) => status_of(run_member(&founding, number, by)),
    };
    ExitCode::from(status)
}

fn status_of(ended: Result<(), Fault>) -> u8 {
    match ended {
        Ok(()) => 0,
        Err(fault) => {
            // The monitor's own name, so that what both print can be compared.
            eprintln!("rbac_monitor: {}", message(&fault));
            1
        }
    }
}

fn read_words(words: Vec<OsString>) -> Option<Words> {
    let words: Vec<String> = words.into_iter().map(OsString::into_string).collect::<Result<_, _>>().ok()?;
    let is_path = |word: &str| word == "-" || !word.starts_with('-');
    match words.iter().map(String::as_str).collect::<Vec<_>>()[..] {
        [] => Some(Words::Play { founding: "-".into(), schedule: "-".into() }),
        ["help" | "--help" | "-h"] => Some(Words::Help),
        ["play", founding, schedule] if is_path(founding) && is_path(schedule) => {
            Some(Words::Play { founding: founding.into(), schedule: schedule.into() })
        }
        ["serve", founding] if is_path(founding) => Some(Words::Serve { founding: founding.into() }),
        [word @ ("member" | "called"), founding, number] if is_path(founding) && !number.starts_with('-') => {
            let by = if word == "member" { BY_LINES } else { BY_CALLS };
            Some(Words::Member { founding: founding.into(), number: number.into(), by })
        }
        _ => None,
    }
}

fn message(fault: &Fault) -> String {
    match fault {
        Fault::File(path) => format!("file: {path}"),
        Fault::Founding(refusal) => format!("founding: {refusal:?}"),
        Fault::NoMember(number) => format!("member: {number}"),
        Fault::Run(fault) => format!("run: {fault:?}"),
    }
}

fn read_founding(path: &str) -> Result<Founding, Fault> {
    let bytes = read_founding_file(path).map_err(|_| Fault::File(path.into()))?;
    founding::read_founding(&bytes).map_err(Fault::Founding)
}

fn found(path: &str) -> Result<World, Fault> {
    read_founding(path).map(World::new)
}

/// Not the buffered standard output: each answer goes out when it is made.
fn unbuffered_output() -> Result<File, Fault> {
    let output = io::stdout().as_fd().try_clone_to_owned();
    output.map(File::from).map_err(|_| Fault::Run(RunFault::Write))
}

fn serve(founding: &str) -> Result<(), Fault> {
    let mut world = found(founding)?;
    let input = BufReader::with_capacity(READ_BYTES, io::stdin().lock());
    serve_lines(input, unbuffered_output()?, &mut world).map_err(Fault::Run)
}

fn run_member(founding: &str, number: String, by: By) -> Result<(), Fault> {
    let founding = read_founding(founding)?;
    let member = number.parse().ok().and_then(|number| Alone::new(founding, number));
    let mut member = member.ok_or(Fault::NoMember(number))?;
    let input = BufReader::with_capacity(READ_BYTES, io::stdin().lock());
    run_member_lines(input, unbuffered_output()?, &mut member, by).map_err(Fault::Run)
}

fn play(founding: &str, schedule: &str) -> Result<(), Fault> {
    let mut world = found(founding)?;
    let output = unbuffered_output()?;
    let played = if schedule == "-" {
        play_lines(BufReader::with_capacity(READ_BYTES, io::stdin().lock()), output, &mut world)
    } else {
        let file = File::open(schedule).map_err(|_| Fault::File(schedule.into()))?;
        play_lines(BufReader::with_capacity(READ_BYTES, file), output, &mut world)
    };
    played.map_err(Fault::Run)
}

/// At most one byte beyond the limit is read, which shows that a file is too long.
fn read_founding_file(path: &str) -> io::Result<Vec<u8>> {
    if path == "-" {
        return Ok(founding::SAMPLE.into());
    }
    let mut bytes = Vec::new();
    File::open(path)?.take(limits::FOUNDING_BYTES as u64 + 1).read_to_end(&mut bytes)?;
    Ok(bytes)
}

fn play_lines(input: impl BufRead, mut output: impl Write, world: &mut World) -> Result<(), RunFault> {
    let mut lines = Lines::new(input, LINE_BYTES);
    let mut number = 0;
    let mut text = Vec::new();
    while let Some(line) = lines.next().map_err(|_| RunFault::Read)? {
        number += 1;
        text.clear();
        match event::read_line(line) {
            Err(refusal) => output::write_line_refusal(&mut text, number, refusal),
            Ok(event) => match world.step(event) {
                Err(refusal) => output::write_event_refusal(&mut text, number, refusal),
                Ok(outcome) => output::write_outcome(&mut text, number, &outcome),
            },
        }
        output.write_all(&text).map_err(|_| RunFault::Write)?;
    }
    Ok(())
}

/// Each line is answered before the next is read. The caller has a serial of its own at each member.
fn serve_lines(input: impl BufRead, mut output: impl Write, world: &mut World) -> Result<(), RunFault> {
    let mut lines = Lines::new(input, LINE_BYTES);
    let mut number = 0;
    let mut serials: HashMap<u32, u32> = HashMap::new();
    let mut text = Vec::new();
    while let Some(line) = lines.next().map_err(|_| RunFault::Read)? {
        number += 1;
        text.clear();
        match event::read_client(line) {
            Err(refusal) => output::write_line_refusal(&mut text, number, refusal),
            Ok((at, command)) => {
                let serial = serials.entry(at).or_default();
                match world.answer(at, *serial, command) {
                    Err(refusal) => output::write_event_refusal(&mut text, number, refusal),
                    Ok(answer) => {
                        *serial += 1;
                        output::write_reply(&mut text, number, &answer);
                    }
                }
            }
        }
        output.write_all(&text).map_err(|_| RunFault::Write)?;
    }
    Ok(())
}

/// Each line asks one thing of the member.
fn run_member_lines(input: impl BufRead, mut output: impl Write, member: &mut Alone, by: By) -> Result<(), RunFault> {
    let mut lines = Lines::new(input, by.longest.line);
    let mut number = 0;
    let mut text = Vec::new();
    while let Some(line) = lines.next().map_err(|_| RunFault::Read)? {
        number += 1;
        text.clear();
        match (by.read)(line) {
            Err(refusal) => output::write_line_refusal(&mut text, number, refusal),
            Ok(asked) => {
                if let Err(refusal) = answer_asked(&mut text, number, asked, member, by.longest.message) {
                    output::write_event_refusal(&mut text, number, refusal);
                }
            }
        }
        output.write_all(&text).map_err(|_| RunFault::Write)?;
    }
    Ok(())
}

fn answer_asked(
    text: &mut Vec<u8>,
    line: u64,
    asked: Asked,
    member: &mut Alone,
    longest: usize,
) -> Result<(), EventRefusal> {
    match asked {
        Asked::Submit(batch) => {
            let message = member.message_of(batch)?;
            short_text(&message, longest)?;
            alone::write_number(text, line, member.send(message));
        }
        Asked::Next(batch) => alone::write_message(text, line, Some(&short_text(&member.message_of(batch)?, longest)?)),
        Asked::Own { number, message } => {
            short_text(&message, longest)?;
            alone::write_number(text, line, member.take_own(number, message)?);
        }
        Asked::Receive(Brought { from, number, message }) => {
            alone::write_received(text, line, member.receive(from, number, message)?);
        }
        Asked::Answer(Brought { from, number, message }) => {
            let answer = member.answer_to(from, number, &message)?;
            alone::write_message(text, line, answer.as_ref().map(alone::message_text).as_deref());
        }
        Asked::Deliver => alone::write_delivered(text, line, member.deliver()),
        Asked::Message { number } => {
            let message = member.sent_message(number).ok_or(EventRefusal::NotSent)?;
            alone::write_message(text, line, Some(&alone::message_text(message)));
        }
        Asked::Record { number } => {
            alone::write_told_record(text, line, member.delivered(number).ok_or(EventRefusal::NotSent)?);
        }
        Asked::Waits => alone::write_waits(text, line, member.waits()),
        Asked::Dump => alone::write_dump(text, line, &member.dump()),
        Asked::Read { from } => alone::write_number(text, line, member.read(from)),
        Asked::Serial { caller } => alone::write_number(text, line, member.next_serial(caller)),
        Asked::Check(check) => {
            let answer = member.check(&check);
            alone::write_checked(text, line, &answer, member.records());
        }
    }
    Ok(())
}

/// The text of a message, where it can be brought to another member.
fn short_text(message: &Message, longest: usize) -> Result<Vec<u8>, EventRefusal> {
    let text = alone::message_text(message);
    if text.len() <= longest { Ok(text) } else { Err(EventRefusal::MessageTooLong) }
}
