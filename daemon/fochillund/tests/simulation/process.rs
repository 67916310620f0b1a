//! One process at a node, or one that only follows the group.
use crate::seen::{Call, Seen, SetCell};
use crate::world::Rows;
use bytes::Bytes;
use fochillund::check_ends;
use fochillund::generation::Foundings;
use fochillund::node::{Asked, Base, NextCell, Node, NodeFault, NodeRefusal};
use fochillund::row_member::{MemberFault, NewCall, Refusal};
use rows::cell::{Cell, Chain, Identity};
use rows::RowName;
use std::collections::HashMap;

/// A cell whose set is under way.
pub struct Setting {
    pub next: NextCell,
    /// Whether no reply to it will come, or one that says nothing.
    pub is_unsure: bool,
}

pub struct Process {
    pub name: usize,
    /// None of one that only follows.
    pub node: Option<String>,
    pub held: Node<usize>,
    pub setting: Option<Setting>,
    /// The rows that it reads, of this generation.
    chains: HashMap<u32, Chain>,
    generation: u64,
    shown: HashMap<u64, usize>,
    /// The call that it knows by an identity, in a generation.
    known: HashMap<(u64, Identity), usize>,
}

/// Whether a fault says that another process is at this node.
pub fn is_fenced(fault: &NodeFault) -> bool {
    let NodeFault::Member { fault, .. } = fault else {
        return false;
    };
    matches!(fault, MemberFault::Fenced)
}

impl Process {
    /// Begins a process that has read so many cells of the founding's row.
    pub fn begin(rows: &Rows, node: Option<&str>, name: usize, foundings: usize) -> Process {
        let mut read = Foundings::new();
        for text in &rows.get(&RowName::founding())[..foundings] {
            read.take(text).expect("a cell of the founding's row");
        }
        let began = |generation: u64| {
            let row = RowName::of_node(&read.nodes(generation)[0], generation);
            Base::of(generation, rows.get(&row.expect("a name")))
        };
        let base = (2..=read.latest()).rev().filter_map(began).nth(1);
        let writer = format!("process {name}");
        let held = Node::begin(node, &writer, read, base.unwrap_or(Base::FIRST));
        Process {
            name,
            node: node.map(str::to_owned),
            held: held.expect("a founding"),
            setting: None,
            chains: HashMap::new(),
            generation: 0,
            shown: HashMap::new(),
            known: HashMap::new(),
        }
    }

    /// Goes on to the generation of its node: reads its own row, so many cells of it at most.
    pub fn go_to(&mut self, rows: &Rows, seen: &Seen, most: usize) -> Result<(), NodeFault> {
        let generation = self.held.generation().clone();
        self.generation = generation.number;
        let followed = self.held.followed();
        let chains = followed.into_iter().map(|at| (at, generation.chain(at)));
        self.chains = chains.collect();
        let Some(mut chain) = self.held.wants_own_row() else {
            return Ok(());
        };
        let row = rows.get(chain.row());
        let own = &row[..most.min(row.len())];
        let cells: Vec<Cell> = chain.take_all(own).expect("cells of its row");
        let there: Vec<u64> = (1..=generation.members())
            .map(|at| rows.get(generation.chain(at).row()).len() as u64)
            .collect();
        check_ends(&cells, &there).map_err(|fault| NodeFault::Member {
            generation: generation.number,
            fault,
        })?;
        self.know(seen, generation.number, cells.len() as u64);
        self.held.enter(chain, &cells)
    }

    /// Where it is to be made anew of its row, it knows what it reads there, which may be an old prefix.
    pub fn forget_what_is_read_again(&mut self) {
        let now = self.held.generation().number;
        if self.held.wants_own_row().is_some() {
            self.known.retain(|(generation, _), _| *generation != now);
        }
    }

    /// Whether its node has gone on, and it has not; or is to be made anew.
    pub fn is_behind_its_node(&self) -> bool {
        self.generation != self.held.generation().number || self.held.wants_own_row().is_some()
    }

    /// Knows the calls of its row's first cells.
    fn know(&mut self, seen: &Seen, generation: u64, cells: u64) {
        let node = self.node.as_deref();
        let own = |cell: &&SetCell| {
            cell.generation == generation
                && Some(cell.node.as_str()) == node
                && cell.number <= cells
        };
        for at in seen.cells.iter().filter(own).flat_map(|cell| &cell.calls) {
            if let Some(identity) = &seen.calls[*at].identity {
                self.known.insert((generation, identity.clone()), *at);
            }
        }
    }

    /// The row of its own in this generation, and how many cells of it it has.
    pub fn own_row(&mut self) -> Option<(RowName, u64)> {
        let member = self.held.member()?;
        let row = self.held.generation().chain(member).row().clone();
        let taken = self.held.taken();
        Some((row, taken.get(member as usize - 1).copied().unwrap_or(0)))
    }

    /// How many cells of the founding's row it has read.
    pub fn foundings(&self) -> usize {
        self.held.foundings().latest() as usize
    }

    /// Reads so many more cells of the founding's row, of those that are there.
    pub fn read_foundings(&mut self, rows: &Rows, most: usize) -> usize {
        let there = rows.get(&RowName::founding());
        let from = self.foundings().min(there.len());
        let to = there.len().min(from.saturating_add(most));
        for text in &there[from..to] {
            let taken = self.held.put_founding(text);
            taken.expect("a cell of the founding's row");
        }
        to - from
    }

    /// The members whose rows it reads.
    pub fn followed(&self) -> Vec<u32> {
        let mut followed: Vec<u32> = self.chains.keys().copied().collect();
        followed.sort_unstable();
        followed
    }

    /// How many cells of a member's row it read.
    pub fn read_of(&self, member: u32) -> usize {
        self.chains[&member].next() as usize - 1
    }

    /// Reads so many more cells of a member's row, of those that are there. Gives how many.
    pub fn read(&mut self, rows: &Rows, member: u32, most: usize) -> Result<usize, NodeFault> {
        let chain = self.chains.get_mut(&member).expect("a row that it reads");
        let row = rows.get(chain.row());
        let from = (chain.next() as usize - 1).min(row.len());
        let to = row.len().min(from.saturating_add(most));
        for text in &row[from..to] {
            let cell = chain.take_sent(text).map_err(|lost| NodeFault::Member {
                generation: self.generation,
                fault: MemberFault::Lost(lost),
            })?;
            self.held.put_cell(member, cell)?;
        }
        Ok(to - from)
    }

    /// A call is asked of it. What a caller has to be told at once is told.
    pub fn ask(&mut self, seen: &mut Seen, call: usize) {
        let asking = seen.ask(call, self.name);
        let Call {
            generation,
            member,
            identity,
            text,
            commands,
            ..
        } = &seen.calls[call];
        let (generation, now) = (*generation, self.held.generation().number);
        let key = identity.clone().map(|identity| (generation, identity));
        let there = key.as_ref().and_then(|key| self.known.get(key)).copied();
        let is_own = generation == now && member.is_some() && *member == self.held.member();
        let expected = match (commands, there) {
            (None, _) => Some("Commands"),
            (Some(_), Some(there)) if there != call => Some("OtherCommands"),
            _ => None,
        };
        if let (true, None, Some(key)) = (is_own, expected, key) {
            self.known.insert(key, call);
        }
        let is_kept = self.is_behind_its_node();
        let asked = Asked {
            generation,
            member: member.unwrap_or(9),
            call: NewCall {
                identity: identity.clone(),
                commands: text.clone(),
            },
        };
        self.held.ask(asked, asking);
        self.observe(seen);
        let told = match &seen.askings[asking].reply {
            Some(Err(NodeRefusal::Call(Refusal::Commands(_)))) => Some("Commands"),
            Some(Err(NodeRefusal::Call(Refusal::OtherCommands))) => Some("OtherCommands"),
            _ => None,
        };
        if is_own && !is_kept {
            assert_eq!(told, expected, "a caller was refused, or was not");
        }
    }

    /// Looks at what it shows and tells.
    pub fn observe(&mut self, seen: &mut Seen) {
        let now = self.held.generation().number;
        for generation in 1..=now {
            let Some(length) = self.held.history_length(generation) else {
                continue;
            };
            let shown = self.shown.entry(generation).or_default();
            let numbers = *shown as u64 + 1..length + 1;
            for (at, record) in (*shown..).zip(self.held.records(generation, numbers)) {
                seen.show(generation, at, record);
            }
            *shown = length as usize;
        }
        for (asking, reply) in self.held.take_told() {
            let is_gone = matches!(
                reply,
                Err(NodeRefusal::Call(Refusal::Full) | NodeRefusal::NotTaken { .. })
            );
            self.forget_refused(seen, asking, is_gone);
            seen.tell(asking, reply);
        }
    }

    /// A call that was refused since the row is full, or has ended, is none that it knows.
    fn forget_refused(&mut self, seen: &Seen, asking: usize, is_gone: bool) {
        let call = &seen.calls[seen.askings[asking].call];
        if let (true, Some(identity)) = (is_gone, &call.identity) {
            self.known.remove(&(call.generation, identity.clone()));
        }
    }

    /// What stands in its own row behind what it has, where another process set it.
    pub fn next_in_row(&mut self, rows: &Rows) -> Option<(u64, Bytes)> {
        let (row, own) = self.own_row()?;
        let text = rows.get(&row).get(own as usize)?;
        Some((self.generation, text.clone()))
    }
}
