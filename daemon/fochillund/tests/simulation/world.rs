//! Rows in memory, processes over them, and sets that are under way.
use crate::commands::{any_file, VOCABULARY};
use crate::process::{is_fenced, Process, Setting};
use crate::seen::Seen;
use bytes::Bytes;
use fochillund::generation::Foundings;
use fochillund::message::{is_seal, seal_of};
use fochillund::node::NodeFault;
use rand::rngs::StdRng;
use rand::seq::SliceRandom;
use rand::{Rng, SeedableRng};
use rows::cell::Cell;
use rows::{RowName, Told};
use serde_json::value::RawValue;
use std::collections::HashMap;

/// All nodes that there may be.
pub const NODES: [&str; 5] = ["n1", "n2", "n3", "n4", "n5"];

/// The most generations of a schedule.
const MOST_GENERATIONS: u64 = 6;

/// The rows, by their names.
#[derive(Default)]
pub struct Rows(pub HashMap<RowName, Vec<Bytes>>);

impl Rows {
    pub fn get(&self, row: &RowName) -> &[Bytes] {
        self.0.get(row).map_or(&[], Vec::as_slice)
    }
}

/// A set that is under way. It may outlive its process.
struct Flight {
    /// Whose it is; none of an operator's.
    process: Option<usize>,
    row: RowName,
    number: u64,
    text: Bytes,
    /// Whether its reply is lost.
    is_lost: bool,
}

/// How often things happened.
#[derive(Clone, Copy, Debug, Default)]
pub struct Figures {
    pub steps: usize,
    pub processes: usize,
    pub observers: usize,
    pub fenced: usize,
    pub landed_after_death: usize,
    pub unsure: usize,
    pub old_prefixes: usize,
    pub records: usize,
    pub answers: usize,
    pub asked_again: usize,
    pub other_commands: usize,
    pub full: usize,
    pub lost_by_chain: usize,
    pub lost_by_ends: usize,
    pub generations: usize,
    pub void: usize,
    pub other_files: usize,
    pub files_denied: usize,
    pub seals_by_others: usize,
    pub not_taken: usize,
    pub answered_of_the_last: usize,
}

pub struct World {
    pub random: StdRng,
    pub rows: Rows,
    pub foundings: Foundings,
    pub processes: Vec<Process>,
    flights: Vec<Flight>,
    pub seen: Seen,
    pub figures: Figures,
    /// Whether generations are proposed.
    pub may_change: bool,
    steps: Option<Vec<String>>,
}

impl Drop for World {
    fn drop(&mut self) {
        if let (true, Some(steps)) = (std::thread::panicking(), &self.steps) {
            eprintln!("{}", steps.join("\n"));
        }
    }
}

impl World {
    pub fn new(seed: u64, is_told: bool) -> World {
        let mut random = StdRng::seed_from_u64(seed);
        let members = [1, 2, 3, 3, 4][random.gen_range(0..5)];
        let may_be_full = random.gen_ratio(1, 25);
        let limit = match may_be_full {
            true => format!("sent_limit = {}\n", random.gen_range(2..12)),
            false => String::new(),
        };
        let founding = format!("version = 1\nmembers = {members}\n{limit}{VOCABULARY}");
        let mut seen = Seen::new(&founding);
        seen.may_be_full = may_be_full;
        let nodes: Vec<String> = NODES[..members].iter().map(|it| (*it).to_owned()).collect();
        let (_, text) = Foundings::new().proposal(&nodes, Some(&founding), "");
        let may_change = !may_be_full && random.gen_ratio(2, 3);
        let mut world = World {
            random,
            rows: Rows::default(),
            foundings: Foundings::new(),
            processes: Vec::new(),
            flights: Vec::new(),
            seen,
            figures: Figures::default(),
            may_change,
            steps: is_told.then(Vec::new),
        };
        world.put(&RowName::founding(), text);
        world
    }

    /// Notes a step, where steps are to be told.
    pub fn note(&mut self, step: impl FnOnce() -> String) {
        self.figures.steps += 1;
        if let Some(steps) = &mut self.steps {
            steps.push(step());
        }
    }

    /// A cell is set, for good.
    fn put(&mut self, row: &RowName, text: Bytes) {
        if *row == RowName::founding() {
            self.foundings.take(&text).expect("a founding's cell");
            let nodes = self.foundings.nodes(self.foundings.latest());
            self.seen.found(nodes);
        } else {
            self.seen.set(row, &text);
        }
        self.rows.0.entry(row.clone()).or_default().push(text);
    }

    /// The generation that goes furthest.
    pub fn furthest(&self) -> u64 {
        let generations = self.processes.iter().map(|it| it.held.generation().number);
        generations.max().unwrap_or(1)
    }

    /// The nodes of all generations.
    pub fn nodes(&self) -> Vec<String> {
        let named = |node: &String| {
            let mut generations = 1..=self.foundings.latest();
            generations.any(|it| self.foundings.nodes(it).contains(node))
        };
        let nodes = NODES.iter().map(|it| (*it).to_owned());
        nodes.filter(named).collect()
    }

    /// Starts a process that has read so many cells of the founding's row, and of its own one.
    pub fn start(&mut self, node: Option<&str>, foundings: usize, cells: usize) {
        let name = self.figures.processes;
        self.figures.processes += 1;
        self.figures.observers += usize::from(node.is_none());
        self.note(|| format!("process {name} starts at {node:?} of {foundings}, {cells} cells"));
        let process = Process::begin(&self.rows, node, name, foundings);
        self.processes.push(process);
        let at = self.processes.len() - 1;
        self.follow_node(at, cells);
    }

    /// A process goes on to the generation of its node, of so many cells of its own row.
    fn follow_node(&mut self, at: usize, cells: usize) {
        let process = &mut self.processes[at];
        let (name, generation) = (process.name, process.held.generation().number);
        let went = process.go_to(&self.rows, &self.seen, cells);
        process.observe(&mut self.seen);
        self.note(|| format!("process {name} is in generation {generation}"));
        self.told(at, went);
    }

    /// What a process was told. It ends where another one is at its node.
    fn told(&mut self, at: usize, told: Result<(), NodeFault>) {
        match told {
            Ok(()) => {}
            Err(fault) if is_fenced(&fault) => self.fence(at),
            Err(fault) => panic!("{fault}"),
        }
    }

    /// A process goes on, of an old prefix of its row or of all of it, where its node did.
    fn catch_up(&mut self, at: usize) {
        if self.processes[at].is_behind_its_node() {
            let row = self.processes[at].own_row();
            let there = row.map_or(0, |(row, _)| self.rows.get(&row).len());
            let cells = match self.random.gen_ratio(1, 6) {
                true => self.random.gen_range(0..=there),
                false => there,
            };
            self.figures.old_prefixes += usize::from(cells < there);
            self.follow_node(at, cells);
        }
    }

    /// A process dies. What it had under way may still be set, or never.
    pub fn kill(&mut self, at: usize) {
        let process = self.processes.swap_remove(at);
        let name = process.name;
        let is_never = self.random.gen();
        self.note(|| format!("process {name} dies"));
        if is_never {
            self.flights.retain(|flight| flight.process != Some(name));
        }
    }

    /// A process begins to set its next cell, unless it sets one.
    pub fn begin(&mut self, at: usize) -> bool {
        let process = &mut self.processes[at];
        if process.setting.is_some() {
            return false;
        }
        let name = process.name;
        let next = process
            .held
            .next_cell()
            .expect("messages that can be taken");
        process.observe(&mut self.seen);
        let Some(next) = next else {
            self.catch_up(at);
            return false;
        };
        assert!(process.node.is_some(), "who only follows would set a cell");
        process.setting = Some(Setting {
            next: next.clone(),
            is_unsure: false,
        });
        self.note(|| format!("process {name} sets cell {} of {}", next.number, next.row));
        self.fly(Some(name), next.row, next.number, next.text);
        true
    }

    fn fly(&mut self, process: Option<usize>, row: RowName, number: u64, text: Bytes) {
        self.flights.push(Flight {
            process,
            row,
            number,
            text,
            is_lost: false,
        });
    }

    pub fn flights(&self) -> usize {
        self.flights.len()
    }

    /// What was under way is gone, as in a loss of power.
    pub fn drop_flights(&mut self) {
        self.flights.clear();
    }

    /// An operator proposes a generation of any nodes, with another founding file or not.
    pub fn propose(&mut self) {
        let latest = self.foundings.latest();
        if !self.may_change || latest >= MOST_GENERATIONS || latest > self.furthest() + 1 {
            return;
        }
        let mut nodes: Vec<String> = NODES.iter().map(|it| (*it).to_owned()).collect();
        nodes.shuffle(&mut self.random);
        nodes.truncate([1, 2, 3, 3, 4][self.random.gen_range(0..5)]);
        let file = self.random.gen_ratio(1, 2);
        let file = file.then(|| any_file(&mut self.random, nodes.len()));
        let proposer = format!("operator {}", self.figures.steps);
        let (number, text) = self.foundings.proposal(&nodes, file.as_deref(), &proposer);
        self.note(|| format!("generation {number} of {nodes:?} is proposed, {file:?}"));
        self.fly(None, RowName::founding(), number, text);
    }

    /// Somebody seals a row of a generation whose successor is proposed.
    pub fn seal_any(&mut self) {
        let furthest = self.furthest();
        if self.foundings.latest() <= furthest {
            return;
        }
        let generation = self.random.gen_range(1..=furthest);
        let nodes = self.foundings.nodes(generation).to_vec();
        let node = nodes.choose(&mut self.random).expect("there are some");
        self.seal(generation, node);
    }

    fn seal(&mut self, generation: u64, node: &str) {
        let own = self.foundings.row_of(generation, node);
        let own = own.expect("it is one of the nodes");
        let (member, members, mut chain) = (own.member, own.members, own.chain);
        let row = chain.row().clone();
        let cells = chain.take_all(self.rows.get(&row)).expect("cells of a row");
        if cells.iter().any(|cell| is_seal(cell.message.get())) {
            return;
        }
        let message = RawValue::from_string(seal_of(member)).expect("JSON");
        let writer = format!("operator {}", self.figures.steps);
        let cell: Cell = chain.cell(&writer, vec![0; members], message);
        let text = Bytes::from(serde_json::to_vec(&cell).expect("JSON"));
        self.note(|| format!("somebody seals {row}"));
        self.figures.seals_by_others += 1;
        self.fly(None, row, chain.next(), text);
    }

    /// The process waits no longer for a reply: it will have to look.
    pub fn lose_reply(&mut self, flight: usize) {
        let name = self.flights[flight].process;
        self.flights[flight].is_lost = true;
        self.note(|| format!("process {name:?} has lost the reply to its set"));
        if self.random.gen_ratio(1, 4) {
            self.flights.swap_remove(flight);
        }
        let process = self.processes.iter_mut().find(|it| Some(it.name) == name);
        if let Some(setting) = process.and_then(|it| it.setting.as_mut()) {
            setting.is_unsure = true;
            self.figures.unsure += 1;
        }
    }

    /// What was under way comes to its row, and its reply to the process.
    pub fn land(&mut self, flight: usize) {
        let flight = self.flights.swap_remove(flight);
        let next = self.rows.get(&flight.row).len() as u64 + 1;
        let told = match flight.number.cmp(&next) {
            std::cmp::Ordering::Less => Told::Taken,
            std::cmp::Ordering::Equal => Told::Set,
            std::cmp::Ordering::Greater => Told::Gap,
        };
        self.note(|| {
            format!(
                "the set of cell {} of {} by {:?} is told {told:?}",
                flight.number, flight.row, flight.process
            )
        });
        assert_ne!(told, Told::Gap, "a cell was to be set behind a gap");
        if told == Told::Set {
            self.put(&flight.row, flight.text.clone());
        }
        let Some(name) = flight.process else {
            return;
        };
        let waits = |process: &Process| {
            let setting = process.setting.as_ref();
            setting.is_some_and(|it| it.next.row == flight.row && it.next.number == flight.number)
        };
        match self.processes.iter().position(|it| it.name == name) {
            // It was asked again, or what became of it was seen.
            Some(at) if flight.is_lost || !waits(&self.processes[at]) => {}
            Some(at) => self.reply(at, told),
            None => self.figures.landed_after_death += usize::from(told == Told::Set),
        }
    }

    fn reply(&mut self, at: usize, told: Told) {
        let setting = self.processes[at].setting.as_ref();
        match told {
            Told::Set => self.was_set(at),
            Told::Taken if setting.is_some_and(|it| it.is_unsure) => drop(self.look(at)),
            _ => self.was_taken(at),
        }
    }

    fn was_set(&mut self, at: usize) {
        let process = &mut self.processes[at];
        let setting = process.setting.take().expect("a cell was being set");
        let told = process.held.was_set(setting.next.generation);
        process.observe(&mut self.seen);
        self.told(at, told);
        self.catch_up_named(setting.next.generation, at);
    }

    /// The cell that a process would set was set by another, or it sees so without a set.
    fn was_taken(&mut self, at: usize) {
        let process = &mut self.processes[at];
        let next = process.setting.take().expect("a cell was being set").next;
        let there = self.rows.get(&next.row)[next.number as usize - 1].clone();
        let told = process.held.was_taken(next.generation, &there);
        process.observe(&mut self.seen);
        process.forget_what_is_read_again();
        self.told(at, told);
        self.catch_up_named(next.generation, at);
    }

    /// The process that stood at this place goes on, where it is there.
    fn catch_up_named(&mut self, generation: u64, at: usize) {
        let goes_on = |it: &Process| {
            it.held.generation().number > generation || it.held.wants_own_row().is_some()
        };
        if self.processes.get(at).is_some_and(goes_on) {
            self.catch_up(at);
        }
    }

    /// A process looks whether its own row has a cell of another behind what it has.
    pub fn watch(&mut self, at: usize) {
        let process = &mut self.processes[at];
        if process.setting.is_some() || process.is_behind_its_node() {
            return;
        }
        let Some((generation, text)) = process.next_in_row(&self.rows) else {
            return;
        };
        let name = process.name;
        let told = process.held.was_taken(generation, &text);
        process.observe(&mut self.seen);
        self.note(|| format!("process {name} sees another's cell in its row"));
        self.told(at, told);
        self.catch_up_named(generation, at);
    }

    fn fence(&mut self, at: usize) {
        let process = self.processes.swap_remove(at);
        self.figures.fenced += 1;
        self.note(|| format!("process {} is fenced", process.name));
    }

    /// A process that does not know what became of its set looks at the row, and sets again where nothing is there. Tells whether it did.
    pub fn look(&mut self, at: usize) -> bool {
        let process = &self.processes[at];
        let name = process.name;
        let Some(setting) = process.setting.as_ref().filter(|it| it.is_unsure) else {
            return false;
        };
        let next = setting.next.clone();
        let there = self.rows.get(&next.row).get(next.number as usize - 1);
        let is_own = there.map(|there| *there == next.text);
        self.note(|| {
            format!(
                "process {name} looks for cell {} of {}",
                next.number, next.row
            )
        });
        match is_own {
            Some(true) => self.was_set(at),
            Some(false) => self.was_taken(at),
            None => self.fly(Some(name), next.row, next.number, next.text),
        }
        true
    }

    /// A process reads some cells of a row that it follows. Tells how many.
    pub fn read(&mut self, at: usize, member: u32, most: usize) -> usize {
        let process = &mut self.processes[at];
        let name = process.name;
        let read = process.read(&self.rows, member, most);
        let read = read.expect("cells that follow one another");
        self.note(|| format!("process {name} reads {read} cells of member {member}"));
        read
    }

    /// A process reads some cells of the founding's row. Tells how many.
    pub fn read_foundings(&mut self, at: usize, most: usize) -> usize {
        let process = &mut self.processes[at];
        let name = process.name;
        let read = process.read_foundings(&self.rows, most);
        self.note(|| format!("process {name} reads {read} cells of the founding's row"));
        read
    }

    /// A process takes what it read.
    pub fn turn(&mut self, at: usize) {
        let process = &mut self.processes[at];
        process.held.turn().expect("messages that can be taken");
        process.observe(&mut self.seen);
        self.catch_up(at);
    }

    /// A caller asks a process.
    pub fn ask(&mut self, at: usize, call: usize) {
        let name = self.processes[at].name;
        let asked = &self.seen.calls[call];
        self.figures.asked_again += usize::from(asked.first_asked.is_some());
        if self.steps.is_some() {
            let told = format!(
                "call {call} of generation {}, {:?}: {}",
                asked.generation, asked.identity, asked.text
            );
            self.note(|| format!("process {name} is asked {told}"));
        }
        self.processes[at].ask(&mut self.seen, call);
    }
}
