//! What was seen from outside: what callers asked and were told, what stands in the rows, and the longest history that any process had of a generation.
use fochillun::Member;
use fochillund::message::is_seal;
use fochillund::node::{NodeRefusal, Reply};
use fochillund::row_member::Refusal;
use rows::cell::{Cell, DumpPart, Identity};
use rows::RowName;
use serde::Deserialize;
use serde_json::value::RawValue;
use std::collections::{BTreeMap, HashMap, HashSet};

/// The generation, the clock, the member, and the place in its message of a command.
pub type Stamp = (u64, u64, u32, usize);

/// A call, which may be asked more than once where it has an identity. Another call may have the same identity.
pub struct Call {
    pub generation: u64,
    pub node: String,
    /// The member that the node is in that generation.
    pub member: Option<u32>,
    pub identity: Option<Identity>,
    pub text: Box<RawValue>,
    /// Its commands as the library writes them, or none where they are none.
    pub commands: Option<Vec<String>>,
    pub first_asked: Option<u64>,
    pub answered: Option<u64>,
    /// The stamp of its first command, once it stands in a row.
    pub stamp: Option<Stamp>,
    /// Whether somebody was told that it was not taken, and never will be.
    pub is_not_taken: bool,
}

/// A call that was asked of a process.
pub struct Asking {
    pub call: usize,
    pub process: usize,
    pub reply: Option<Reply>,
}

/// The calls of a cell that is set.
pub struct SetCell {
    pub generation: u64,
    pub node: String,
    pub number: u64,
    pub calls: Vec<usize>,
    pub commands: usize,
}

/// A record of the history.
#[derive(Deserialize)]
pub struct Record<'t> {
    #[serde(borrow)]
    pub answer: &'t RawValue,
    #[serde(borrow)]
    pub command: &'t RawValue,
    pub stamp: Vec<u64>,
}

#[derive(Deserialize)]
struct Message<'t> {
    stamp: (u64, u32),
    #[serde(borrow, default)]
    commands: Vec<&'t RawValue>,
}

fn message_of(text: &str) -> Message<'_> {
    serde_json::from_str(text).expect("a message")
}

/// A record's parts.
pub fn record_of(text: &str) -> Record<'_> {
    serde_json::from_str(text).expect("a record")
}

/// All that was seen.
pub struct Seen {
    reader: Member,
    pub time: u64,
    pub calls: Vec<Call>,
    pub askings: Vec<Asking>,
    pub cells: Vec<SetCell>,
    /// The history of each generation.
    pub histories: BTreeMap<u64, Vec<String>>,
    /// The nodes of generations 1, 2 and so on.
    nodes: Vec<Vec<String>>,
    places: HashMap<Stamp, usize>,
    /// The generation, member and clock of each message that stands in a row.
    stamps: HashMap<(u64, u32, u64), usize>,
    sealed: HashSet<RowName>,
    /// The generations whose dump stands in their first member's row to its end.
    begun: HashSet<u64>,
    identities: HashMap<(u64, String, Identity), Vec<usize>>,
    by_last_command: HashMap<String, usize>,
    /// Whether members may refuse calls, since they have sent all that they may.
    pub may_be_full: bool,
}

impl Seen {
    pub fn new(founding: &str) -> Seen {
        Seen {
            reader: Member::open(founding.as_bytes(), 1).expect("a founding"),
            time: 0,
            calls: Vec::new(),
            askings: Vec::new(),
            cells: Vec::new(),
            histories: BTreeMap::new(),
            nodes: Vec::new(),
            places: HashMap::new(),
            stamps: HashMap::new(),
            sealed: HashSet::new(),
            begun: HashSet::new(),
            identities: HashMap::new(),
            by_last_command: HashMap::new(),
            may_be_full: false,
        }
    }

    /// The next generation was founded or proposed, with these nodes.
    pub fn found(&mut self, nodes: &[String]) {
        self.nodes.push(nodes.to_vec());
    }

    fn member_of(&self, generation: u64, node: &str) -> Option<u32> {
        let nodes = self.nodes.get(generation as usize - 1)?;
        let at = nodes.iter().position(|named| named == node)?;
        Some(at as u32 + 1)
    }

    /// A call that somebody will ask; the one that is there, where it has the same identity and commands.
    pub fn add_call(
        &mut self,
        generation: u64,
        node: &str,
        identity: Option<Identity>,
        text: String,
    ) -> usize {
        let at = self.calls.len();
        let message = self.reader.next_submit_batch(0, 0, &text);
        let commands = message.ok().map(|message| {
            let commands = message_of(&message).commands;
            let commands = commands.into_iter().map(|it| it.get().to_owned());
            commands.collect::<Vec<_>>()
        });
        match (&identity, &commands) {
            (Some(identity), _) => {
                let key = (generation, node.to_owned(), identity.clone());
                let there = self.identities.entry(key).or_default();
                let same = |it: &&usize| self.calls[**it].commands == commands;
                if let Some(same) = there.iter().find(same) {
                    return *same;
                }
                there.push(at);
            }
            (None, Some(commands)) => {
                let last = commands.last().expect("a call has a command");
                self.by_last_command.insert(last.clone(), at);
            }
            (None, None) => {}
        }
        self.calls.push(Call {
            generation,
            node: node.to_owned(),
            member: self.member_of(generation, node),
            identity,
            text: RawValue::from_string(text).expect("JSON"),
            commands,
            first_asked: None,
            answered: None,
            stamp: None,
            is_not_taken: false,
        });
        at
    }

    /// A call is asked.
    pub fn ask(&mut self, call: usize, process: usize) -> usize {
        self.time += 1;
        self.calls[call].first_asked.get_or_insert(self.time);
        self.askings.push(Asking {
            call,
            process,
            reply: None,
        });
        self.askings.len() - 1
    }

    /// The calls that have an identity, by generation and node.
    pub fn identities(&self) -> impl Iterator<Item = &[usize]> {
        self.identities.values().map(Vec::as_slice)
    }

    /// A cell was set, for good. What it carries was asked, no call of it stands in a row already, and none of it was told to be in none.
    pub fn set(&mut self, row: &RowName, text: &[u8]) {
        let cell: Cell = serde_json::from_slice(text).expect("a cell");
        let (node, _) = row.as_str().split_once('/').expect("a node's row");
        assert!(!self.sealed.contains(row), "a cell behind a seal");
        if is_seal(cell.message.get()) {
            self.sealed.insert(row.clone());
        }
        let message = message_of(cell.message.get());
        let commands: Vec<&str> = message.commands.iter().map(|it| it.get()).collect();
        let (clock, member) = message.stamp;
        assert_eq!(member, cell.member, "a message of another member");
        let generation = cell.generation;
        let ends_dump = |dump: DumpPart| dump.first + commands.len() == dump.total;
        if cell.dump.is_some_and(ends_dump) {
            self.begun.insert(generation);
        }
        assert_eq!(self.member_of(generation, node), Some(member));
        self.stamps
            .insert((generation, member, clock), commands.len());
        let (mut first, mut calls) = (0, Vec::new());
        for call in &cell.calls {
            let own = &commands[first..first + call.commands];
            let at = self.asked(generation, node, call.identity.as_ref(), own);
            assert!(!self.calls[at].is_not_taken, "told NotTaken, and taken");
            self.calls[at].stamp = Some((generation, clock, member, first));
            calls.push(at);
            first += call.commands;
        }
        assert!(
            first == commands.len() || first == 0 && cell.dump.is_some(),
            "commands that are of no call"
        );
        self.cells.push(SetCell {
            generation,
            node: node.to_owned(),
            number: cell.number,
            calls,
            commands: commands.len(),
        });
    }

    /// Which call was set.
    fn asked(
        &self,
        generation: u64,
        node: &str,
        identity: Option<&Identity>,
        commands: &[&str],
    ) -> usize {
        let same = match identity {
            Some(identity) => {
                let key = (generation, node.to_owned(), identity.clone());
                self.identities[&key].clone()
            }
            None => vec![self.by_last_command[*commands.last().expect("a command")]],
        };
        for at in &same {
            assert_eq!(self.calls[*at].stamp, None, "a call was carried out twice");
        }
        let is_it = |at: &usize| {
            let asked = self.calls[*at].commands.as_ref();
            asked.is_some_and(|asked| asked == commands)
        };
        same.into_iter().find(is_it).expect("commands of nobody")
    }

    /// A process shows a record of its history: the one that stands there in every other history of that generation.
    pub fn show(&mut self, generation: u64, at: usize, text: String) {
        let history = self.histories.entry(generation).or_default();
        if let Some(there) = history.get(at) {
            assert_eq!(
                *there, text,
                "two histories, of which none begins the other"
            );
            return;
        }
        assert_eq!(at, history.len());
        let record = record_of(&text);
        let place = record.stamp.get(2).map_or(0, |place| *place as usize);
        let (clock, member) = (record.stamp[0], record.stamp[1] as u32);
        let commands = self.stamps.get(&(generation, member, clock));
        let is_set = commands.is_some_and(|commands| place < *commands);
        assert!(is_set, "shown before its cell was set: {text}");
        let stamp = (generation, clock, member, place);
        let before = self.places.insert(stamp, at);
        assert_eq!(before, None, "delivered twice: {text}");
        history.push(text);
    }

    /// A caller is told.
    pub fn tell(&mut self, asking: usize, reply: Reply) {
        self.time += 1;
        let at = self.askings[asking].call;
        let call = &mut self.calls[at];
        match &reply {
            Ok(answered) => {
                assert_eq!(answered.generation, call.generation);
                self.check_answer(at, &answered.records);
            }
            Err(NodeRefusal::NotTaken { now }) => {
                assert!(*now > call.generation, "NotTaken of what goes on");
                assert_eq!(call.stamp, None, "told NotTaken, and taken");
                call.is_not_taken = true;
            }
            Err(NodeRefusal::OldGeneration { .. }) => {
                // One of those that began later goes on, and one was the last.
                let later = self.begun.iter().filter(|it| **it > call.generation);
                assert!(later.count() >= 2, "told OldGeneration of the last one");
            }
            Err(NodeRefusal::NoGeneration { now }) => assert!(*now < call.generation),
            Err(NodeRefusal::OtherMember { member }) => assert_ne!(*member, Some(0)),
            Err(NodeRefusal::Call(Refusal::Full)) => assert!(self.may_be_full, "told Full"),
            Err(NodeRefusal::Call(Refusal::Commands(_))) => assert!(call.commands.is_none()),
            Err(NodeRefusal::Call(Refusal::OtherCommands)) => assert!(call.identity.is_some()),
            Err(NodeRefusal::NotPermitted) => panic!("told of a session"),
            Err(NodeRefusal::Call(refusal)) => panic!("told {refusal}"),
        }
        let there = self.askings[asking].reply.replace(reply);
        assert_eq!(there, None, "told twice");
    }

    fn check_answer(&mut self, at: usize, records: &[String]) {
        let stamp = self.calls[at].stamp;
        let stamp = stamp.expect("answered, and stands in no row");
        let place = self.places[&stamp];
        let history = &self.histories[&stamp.0];
        assert_eq!(
            &history[place..place + records.len()],
            records,
            "not its place's records"
        );
        let told: Vec<&str> = records
            .iter()
            .map(|it| record_of(it).command.get())
            .collect();
        let commands = self.calls[at].commands.as_ref();
        assert_eq!(*commands.expect("it has commands"), told, "other commands");
        self.calls[at].answered.get_or_insert(self.time);
    }

    /// Where a call's first command stands: the generation, and the place in its history.
    pub fn place_of(&self, call: &Call) -> Option<(u64, usize)> {
        let stamp = call.stamp?;
        Some((stamp.0, *self.places.get(&stamp)?))
    }
}
