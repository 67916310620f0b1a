//! What has to hold at the end of a schedule.
use crate::judge::History;
use crate::seen::{record_of, Seen};
use crate::world::World;
use fochillun::Monitor;
use fochillund::founding::with_members;
use fochillund::generation::try_founding;
use fochillund::node::{Base, NodeRefusal};
use fochillund::row_member::Refusal;
use rows::RowName;

/// The commands that make a policy.
fn dump_of(monitor: &mut Monitor) -> Vec<String> {
    let dump = monitor.dump().expect("memory");
    let command = |line: &str| {
        let (_, command) = line.split_once(r#""command":"#).expect("a client line");
        command.strip_suffix('}').expect("an object").to_owned()
    };
    dump.lines().map(command).collect()
}

/// The answers are those that a monitor gives, which applies each generation's history in its order. A generation begins with the policy that the last
/// one left that was not void, under the founding file that was proposed, where that lets it be so. Gives each history.
pub fn check_answers(world: &mut World) -> Vec<History> {
    let mut histories: Vec<History> = Vec::new();
    let mut before: Option<(Monitor, u64)> = None;
    for generation in 1..=world.furthest() {
        let records = world.seen.histories.get(&generation);
        let records = records.cloned().unwrap_or_default();
        world.figures.generations += 1;
        if is_void(world, generation) {
            world.figures.void += 1;
            let calls = |cell: &&crate::seen::SetCell| cell.generation == generation;
            let mut calls = world.seen.cells.iter().filter(calls);
            assert!(
                calls.all(|it| it.calls.is_empty()),
                "a call of a void generation"
            );
            continue;
        }
        let (mut begins, mut founded_by) = (Vec::new(), 1);
        if let Some((monitor, by)) = &mut before {
            begins = dump_of(monitor);
            founded_by = founded_by_of(world, generation, *by, &begins);
        }
        let file = world.foundings.generation(generation, founded_by).file;
        let mut monitor = Monitor::open(file.as_bytes()).expect("a founding");
        for (at, text) in records.iter().enumerate() {
            let record = record_of(text);
            if let Some(command) = begins.get(at) {
                assert_eq!(record.command.get(), command, "another policy than before");
                assert_eq!(record.answer.get(), "\"Done\"");
            }
            let answer = monitor.apply(record.command.get()).expect("a command");
            assert_eq!(record.answer.get(), answer, "the answer of {text}");
        }
        before = Some((monitor, founded_by));
        histories.push(History {
            founding: of_one_member(&file),
            records,
        });
    }
    histories
}

/// The founding of a group of one that has the same vocabulary, and room for all commands.
fn of_one_member(file: &str) -> String {
    let file = with_members(file, 1);
    let lines = file.lines().filter(|line| !line.starts_with("sent_limit"));
    lines.map(|line| format!("{line}\n")).collect()
}

/// Whether a generation ended before its dump did: its first member's row has a seal, and not all of the dump.
fn is_void(world: &World, generation: u64) -> bool {
    let first = &world.foundings.nodes(generation)[0];
    let row = RowName::of_node(first, generation).expect("a name");
    let is_over = generation < world.furthest();
    is_over && generation > 1 && Base::of(generation, world.rows.get(&row)).is_none()
}

fn founded_by_of(world: &mut World, generation: u64, before: u64, dump: &[String]) -> u64 {
    let has_file = world.foundings.has_file(generation);
    if !has_file {
        return before;
    }
    let own = world.foundings.generation(generation, generation).file;
    match try_founding(&own, dump) {
        Ok(()) => {
            world.figures.other_files += 1;
            generation
        }
        Err(_) => {
            world.figures.files_denied += 1;
            before
        }
    }
}

/// A call that was asked after another one was answered stands behind it.
pub fn check_order(seen: &Seen) {
    let mut answered = Vec::new();
    let mut asked = Vec::new();
    for call in &seen.calls {
        let Some(place) = seen.place_of(call) else {
            assert_eq!(call.answered, None, "answered, and lost");
            continue;
        };
        asked.push((call.first_asked.expect("it was asked"), place));
        answered.extend(call.answered.map(|time| (time, place)));
    }
    asked.sort_unstable();
    answered.sort_unstable();
    let mut before = answered.into_iter().peekable();
    let mut last = None;
    for (time, place) in asked {
        while let Some((_, answered)) = before.next_if(|(answered, _)| *answered < time) {
            last = last.max(Some(answered));
        }
        assert!(
            last < Some(place),
            "asked behind an answer, and ordered before it"
        );
    }
}

/// All processes are in one generation, and have one history, which has all commands that stand in any row; and so had each generation before; and who
/// asked a process that lives was told.
pub fn check_all_is_brought(world: &mut World) {
    let furthest = world.furthest();
    assert_eq!(
        furthest,
        world.foundings.latest(),
        "a generation that does not begin"
    );
    for generation in 1..=furthest {
        if is_void(world, generation) {
            continue;
        }
        let cells = world.seen.cells.iter();
        let own = cells.filter(|cell| cell.generation == generation);
        let commands: usize = own.map(|cell| cell.commands).sum();
        let length = world.seen.histories.get(&generation).map_or(0, Vec::len);
        assert_eq!(length, commands, "commands of the rows that no history has");
        for process in &mut world.processes {
            let now = process.held.generation().number;
            assert_eq!(now, furthest, "a process is behind");
            if generation == furthest {
                let own = process.held.history_length(generation);
                assert_eq!(own, Some(length as u64), "a shorter history");
            }
        }
    }
    for asking in &world.seen.askings {
        let lives = world.processes.iter().any(|it| it.name == asking.process);
        assert!(!lives || asking.reply.is_some(), "a caller was not told");
    }
}

/// Counts what callers were told.
pub fn count(world: &mut World) {
    world.figures.records = world.seen.histories.values().map(Vec::len).sum();
    let furthest = world.furthest();
    for asking in &world.seen.askings {
        match &asking.reply {
            Some(Ok(answered)) => {
                world.figures.answers += 1;
                world.figures.answered_of_the_last += usize::from(answered.generation < furthest);
            }
            Some(Err(NodeRefusal::Call(Refusal::OtherCommands))) => {
                world.figures.other_commands += 1;
            }
            Some(Err(NodeRefusal::Call(Refusal::Full))) => world.figures.full += 1,
            Some(Err(NodeRefusal::NotTaken { .. })) => world.figures.not_taken += 1,
            _ => {}
        }
    }
}
