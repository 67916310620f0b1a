//! A node through its generations, where it could go wrong: each test is named for what has to hold.
use bytes::Bytes;
use fochillund::founding::FoundingFault;
use fochillund::generation::{CellFault, Foundings};
use fochillund::message::{is_seal, seal_of, SEAL_CLOCK};
use fochillund::node::{Asked, Base, Node, NodeFault, NodeRefusal, Phase, Reply};
use fochillund::row_member::{MemberFault, NewCall};
use fochillund::rules;
use rows::cell::{Cell, Chain, Founding, Identity};
use rows::RowName;
use serde_json::value::RawValue;
use std::collections::HashMap;

const FILE: &str = r#"version = 1
members = 2
operations = ["read"]
objects = ["chart", "rota"]
permissions = [["read", "chart"], ["read", "rota"]]
"#;

/// Rows in memory, and the nodes over them.
struct Group {
    foundings: Foundings,
    cells: Vec<Bytes>,
    rows: HashMap<RowName, Vec<Bytes>>,
    nodes: Vec<Running>,
}

struct Running {
    node: Node<u32>,
    chains: HashMap<u32, Chain>,
    generation: u64,
}

fn names(nodes: &[&str]) -> Vec<String> {
    nodes.iter().map(|&node| node.to_owned()).collect()
}

impl Group {
    /// A group of these nodes, each with a process.
    fn of(nodes: &[&str]) -> Group {
        let file = fochillund::founding::with_members(FILE, nodes.len());
        let mut group = Group {
            foundings: Foundings::new(),
            cells: Vec::new(),
            rows: HashMap::new(),
            nodes: Vec::new(),
        };
        group.propose(nodes, Some(&file));
        for node in nodes {
            group.start(Some(node));
        }
        group
    }

    fn propose(&mut self, nodes: &[&str], file: Option<&str>) {
        let proposer = match self.foundings.latest() {
            0 => "",
            _ => "operator",
        };
        let (_, text) = self.foundings.proposal(&names(nodes), file, proposer);
        self.foundings.take(&text).unwrap();
        self.cells.push(text);
    }

    /// Starts a process, the last one of the list.
    fn start(&mut self, node: Option<&str>) -> usize {
        let mut foundings = Foundings::new();
        for text in &self.cells {
            foundings.take(text).unwrap();
        }
        let writer = format!("w{}", self.nodes.len());
        let node = Node::begin(node, &writer, foundings, Base::FIRST).unwrap();
        self.nodes.push(Running {
            node,
            chains: HashMap::new(),
            generation: 0,
        });
        self.nodes.len() - 1
    }

    fn row(&self, row: &RowName) -> &[Bytes] {
        self.rows.get(row).map_or(&[], Vec::as_slice)
    }

    /// A process goes on to its node's generation, where it has not.
    fn go_to(&mut self, at: usize) {
        let generation = self.nodes[at].node.generation().clone();
        let wants_own_row = self.nodes[at].node.wants_own_row().is_some();
        if self.nodes[at].generation == generation.number && !wants_own_row {
            return;
        }
        let running = &mut self.nodes[at];
        running.generation = generation.number;
        let followed = running.node.followed().into_iter();
        running.chains = followed.map(|it| (it, generation.chain(it))).collect();
        if let Some(mut chain) = running.node.wants_own_row() {
            let own = self.row(chain.row()).to_vec();
            let cells = chain.take_all(&own).unwrap();
            self.nodes[at].node.enter(chain, &cells).unwrap();
        }
    }

    /// A process reads all that stands in the rows that it follows.
    fn read(&mut self, at: usize) {
        self.go_to(at);
        let running = &mut self.nodes[at];
        for (member, chain) in &mut running.chains {
            let row = self.rows.get(chain.row()).map_or(&[][..], Vec::as_slice);
            for text in &row[chain.next() as usize - 1..] {
                let sent = chain.take_sent(text).unwrap();
                running.node.put_cell(*member, sent).unwrap();
            }
        }
        running.node.turn().unwrap();
    }

    /// A process sees what was proposed.
    fn see_proposals(&mut self, at: usize) {
        let seen = self.nodes[at].node.foundings().latest() as usize;
        for text in &self.cells[seen..] {
            self.nodes[at].node.put_founding(text).unwrap();
        }
    }

    /// A process sets its next cell. Tells whether it had one.
    fn set(&mut self, at: usize) -> bool {
        let Some(next) = self.nodes[at].node.next_cell().unwrap() else {
            return false;
        };
        let row = self.rows.entry(next.row).or_default();
        assert_eq!(next.number, row.len() as u64 + 1);
        row.push(next.text);
        self.nodes[at].node.was_set(next.generation).unwrap();
        true
    }

    /// These processes see, read and set until nothing moves.
    fn settle(&mut self, among: &[usize]) {
        for _ in 0..100 {
            let mut has_moved = false;
            for at in among {
                self.see_proposals(*at);
                self.read(*at);
                has_moved |= self.set(*at);
                has_moved |= self.nodes[*at].generation != self.generation(*at);
            }
            if !has_moved {
                return;
            }
        }
        panic!("it never ends");
    }

    fn generation(&self, at: usize) -> u64 {
        self.nodes[at].node.generation().number
    }

    fn ask(&mut self, at: usize, generation: u64, id: Option<&str>, command: &str, waiter: u32) {
        let member = self.nodes[at].node.member().unwrap_or(1);
        self.ask_member(at, (generation, member), id, command, waiter);
    }

    fn ask_member(
        &mut self,
        at: usize,
        (generation, member): (u64, u32),
        id: Option<&str>,
        command: &str,
        waiter: u32,
    ) {
        let identity = id.map(|id| Identity {
            caller: "ann".to_owned(),
            id: id.to_owned(),
        });
        let commands = RawValue::from_string(format!("[{command}]")).unwrap();
        let call = NewCall { identity, commands };
        let asked = Asked {
            generation,
            member,
            call,
        };
        self.nodes[at].node.ask(asked, waiter);
    }

    fn told(&mut self, at: usize) -> Vec<(u32, Reply)> {
        self.nodes[at].node.take_told()
    }

    /// What one caller is told.
    fn told_to(&mut self, at: usize, waiter: u32) -> Reply {
        let told = self.told(at).into_iter();
        let mut own = told.filter(|(it, _)| *it == waiter).map(|(_, reply)| reply);
        own.next().expect("it is told")
    }

    /// Somebody seals a node's row.
    fn seal(&mut self, generation: u64, node: &str) {
        let own = self.foundings.row_of(generation, node).unwrap();
        let mut chain = own.chain;
        let row = chain.row().clone();
        chain.take_all(self.row(&row)).unwrap();
        let message = RawValue::from_string(seal_of(own.member)).unwrap();
        let cell = chain.cell("somebody", vec![0; own.members], message);
        let text = serde_json::to_vec(&cell).unwrap();
        self.rows.entry(row).or_default().push(text.into());
    }
}

fn row_of(node: &str, generation: u64) -> RowName {
    RowName::of_node(node, generation).unwrap()
}

fn add_user(user: &str) -> String {
    format!(r#"{{"name":"AddUser","user":"{user}"}}"#)
}

fn has_seal(row: &[Bytes]) -> bool {
    let last: Cell = serde_json::from_slice(row.last().unwrap()).unwrap();
    is_seal(last.message.get())
}

#[test]
fn a_group_keeps_the_name_of_its_rules_and_takes_no_others() {
    let mut foundings = Foundings::new();
    let (_, text) = foundings.proposal(&names(&["a"]), Some(FILE), "");
    let text = String::from_utf8(text.to_vec()).unwrap();
    let named = |name: &str| Bytes::from(text.replace(rules::NAME, name));
    for other in ["fochillun 0.10.0", "fochillun 0.15", ""] {
        let refused = foundings.take(&named(other)).unwrap_err();
        let differs = CellFault::Differs(FoundingFault::Differs("other rules"));
        assert_eq!(refused, differs, "{other}");
    }
    foundings.take(&named("fochillun 0.12.0")).unwrap();
    let (_, text) = foundings.proposal(&names(&["a", "b"]), None, "operator");
    let next: Founding = serde_json::from_slice(&text).unwrap();
    assert_eq!(next.rules, "fochillun 0.12.0");
    foundings.take(&text).unwrap();
}

#[test]
fn a_seal_is_an_acknowledgement_that_ends_a_row() {
    assert_eq!(seal_of(2), format!(r#"{{"stamp":[{SEAL_CLOCK},2]}}"#));
    let mut group = Group::of(&["n1", "n2"]);
    group.settle(&[0, 1]);
    group.ask(0, 1, None, &add_user("bob"), 1);
    group.propose(&["n1"], None);
    // Member 2 is gone, has acknowledged nothing, and somebody seals its row.
    group.set(0);
    group.seal(1, "n2");
    group.settle(&[0]);
    assert!(has_seal(group.row(&row_of("n1", 1))));
    assert_eq!(group.generation(0), 2);
    let answered = group.told_to(0, 1).unwrap();
    assert_eq!((answered.generation, answered.records.len()), (1, 1));
}

#[test]
fn another_seal_waits_for_the_own_one() {
    let mut group = Group::of(&["n1", "n2"]);
    group.settle(&[0, 1]);
    group.ask(0, 1, None, &add_user("bob"), 1);
    group.set(0);
    group.propose(&["n1", "n2"], None);
    group.see_proposals(0);
    while group.set(0) {}
    // Member 2 reads the command and the seal of the other row before it knows of the proposal, and has to acknowledge the command still.
    group.read(1);
    assert!(group.set(1));
    assert!(!has_seal(group.row(&row_of("n2", 1))));
    group.settle(&[0, 1]);
    assert_eq!((group.generation(0), group.generation(1)), (2, 2));
}

#[test]
fn nobody_sends_a_call_before_it_has_the_dump() {
    let mut group = Group::of(&["n1", "n2"]);
    group.settle(&[0, 1]);
    for user in 0..70 {
        group.ask(0, 1, None, &add_user(&format!("u{user}")), user);
        group.settle(&[0, 1]);
    }
    group.propose(&["n1", "n2"], None);
    // The first member has told a part of the dump.
    while group.row(&row_of("n1", 2)).is_empty() {
        for at in [0, 1] {
            group.see_proposals(at);
            group.read(at);
            group.set(at);
        }
    }
    group.read(1);
    assert_eq!(group.nodes[1].node.phase(), Phase::Begins);
    group.ask(1, 2, None, &add_user("bob"), 99);
    while group.set(1) {}
    let row = group.row(&row_of("n2", 2));
    assert!(row
        .iter()
        .all(|text| !String::from_utf8_lossy(text).contains("bob")));
    group.settle(&[0, 1]);
    assert_eq!(group.told_to(1, 99).unwrap().records.len(), 1);
    let history = group.nodes[0].node.records(2, 1..72);
    assert!(history[70].contains("bob"));
}

#[test]
fn a_first_member_that_dies_amid_its_dump_goes_on_with_it() {
    let mut group = Group::of(&["n1", "n2"]);
    group.settle(&[0, 1]);
    for user in 0..130 {
        group.ask(0, 1, None, &add_user(&format!("u{user}")), user);
        group.settle(&[0, 1]);
    }
    group.propose(&["n1", "n2"], None);
    while group.row(&row_of("n1", 2)).len() < 2 {
        for at in [0, 1] {
            group.see_proposals(at);
            group.read(at);
            group.set(at);
        }
    }
    group.nodes.remove(0);
    let anew = group.start(Some("n1"));
    group.settle(&[anew, 0]);
    assert_eq!(group.generation(anew), 2);
    assert_eq!(group.nodes[0].node.history_length(2), Some(130));
}

#[test]
fn a_generation_that_ends_before_its_dump_is_void() {
    let mut group = Group::of(&["n1", "n2"]);
    group.settle(&[0, 1]);
    group.ask(0, 1, None, &add_user("bob"), 1);
    group.settle(&[0, 1]);
    // The first member of generation 2 is none that runs, so it is sealed before it tells anything.
    group.propose(&["n3", "n1", "n2"], None);
    group.settle(&[0, 1]);
    assert_eq!(group.nodes[0].node.phase(), Phase::Begins);
    group.ask(0, 2, Some("a"), &add_user("cat"), 2);
    group.propose(&["n1", "n2"], None);
    group.seal(2, "n3");
    group.settle(&[0, 1]);
    assert_eq!((group.generation(0), group.generation(1)), (3, 3));
    assert_eq!(group.told_to(0, 2), Err(NodeRefusal::NotTaken { now: 3 }));
    let history = group.nodes[1].node.records(3, 1..2);
    assert!(history[0].contains("bob"));
    group.ask_member(0, (2, 2), Some("a"), &add_user("cat"), 3);
    assert_eq!(group.told_to(0, 3), Err(NodeRefusal::NotTaken { now: 3 }));
}

#[test]
fn ids_are_answered_in_the_next_generation_and_in_the_one_after_no_more() {
    let mut group = Group::of(&["n1", "n2"]);
    group.settle(&[0, 1]);
    group.ask(0, 1, Some("a"), &add_user("bob"), 1);
    group.settle(&[0, 1]);
    let first = group.told_to(0, 1);
    group.propose(&["n1", "n2", "n3"], None);
    let third = group.start(Some("n3"));
    group.settle(&[0, 1, third]);
    group.ask(0, 1, Some("a"), &add_user("bob"), 2);
    assert_eq!(group.told_to(0, 2), first);
    group.ask(0, 1, Some("b"), &add_user("cat"), 3);
    assert_eq!(group.told_to(0, 3), Err(NodeRefusal::NotTaken { now: 2 }));
    // A member that is new was none in the generation before.
    group.ask_member(third, (1, 1), Some("a"), &add_user("bob"), 4);
    let member = None;
    assert_eq!(
        group.told_to(third, 4),
        Err(NodeRefusal::OtherMember { member })
    );
    group.propose(&["n1", "n2", "n3"], None);
    group.settle(&[0, 1, third]);
    group.ask(0, 1, Some("a"), &add_user("bob"), 5);
    assert_eq!(
        group.told_to(0, 5),
        Err(NodeRefusal::OldGeneration { now: 3 })
    );
}

#[test]
fn who_has_an_unset_call_where_another_seals_is_told_that_it_was_not_taken() {
    let mut group = Group::of(&["n1", "n2"]);
    group.settle(&[0, 1]);
    group.ask(0, 1, Some("b"), &add_user("eve"), 2);
    assert!(group.set(0));
    group.ask(0, 1, Some("a"), &add_user("bob"), 1);
    let next = group.nodes[0].node.next_cell().unwrap().unwrap();
    group.ask(0, 1, Some("c"), &add_user("joe"), 3);
    group.propose(&["n2"], None);
    group.seal(1, "n1");
    let there = group.row(&next.row)[next.number as usize - 1].clone();
    group.nodes[0].node.was_taken(1, &there).unwrap();
    let refusal = NodeRefusal::NotTaken { now: 2 };
    assert_eq!(group.told(0), [(1, Err(refusal)), (3, Err(refusal))]);
    // What was to be set was in its memory: it is made anew of its row, and tells who waits for what is set.
    assert!(group.nodes[0].node.wants_own_row().is_some());
    group.settle(&[0, 1]);
    assert_eq!(group.told_to(0, 2).unwrap().records.len(), 1);
    assert_eq!(group.nodes[0].node.phase(), Phase::Follows);
    assert_eq!(group.nodes[1].node.history_length(1), Some(1));
    assert_eq!(group.nodes[1].node.history_length(2), Some(1));
}

#[test]
fn a_cell_of_another_that_is_no_seal_fences() {
    let mut group = Group::of(&["n1"]);
    let second = group.start(Some("n1"));
    group.settle(&[0]);
    group.read(second);
    group.ask(0, 1, None, &add_user("bob"), 1);
    group.set(0);
    let there = group.row(&row_of("n1", 1))[0].clone();
    let told = group.nodes[second].node.was_taken(1, &there).unwrap_err();
    let NodeFault::Member { fault, .. } = told else {
        panic!("{told}");
    };
    assert_eq!(fault, MemberFault::Fenced);
}

#[test]
fn a_founding_file_that_only_the_last_command_before_the_seals_denies_is_left() {
    let mut group = Group::of(&["n1", "n2"]);
    group.settle(&[0, 1]);
    let less = FILE.replace(r#", ["read", "rota"]"#, "");
    let less = less.replace(r#", "rota""#, "");
    group.ask(0, 1, None, r#"{"name":"AddRole","role":"r"}"#, 1);
    group.settle(&[0, 1]);
    let grant = r#"{"name":"GrantPermission","operation":"read","object":"rota","role":"r"}"#;
    group.ask(1, 1, None, grant, 2);
    group.propose(&["n1", "n2"], Some(&less));
    group.set(1);
    group.settle(&[0, 1]);
    for at in [0, 1] {
        let generation = group.nodes[at].node.generation();
        assert_eq!((generation.number, generation.founded_by), (2, 1));
    }
    // Where the policy lets it be so it is taken.
    let revoke = grant.replace("Grant", "Revoke");
    group.ask(1, 2, None, &revoke, 3);
    group.settle(&[0, 1]);
    group.propose(&["n1", "n2"], Some(&less));
    group.settle(&[0, 1]);
    assert_eq!(group.nodes[0].node.generation().founded_by, 3);
    group.ask(0, 3, None, grant, 4);
    group.settle(&[0, 1]);
    let answered = group.told_to(0, 4).unwrap();
    assert!(answered.records[0].contains("NoPermission"));
}

#[test]
fn a_row_that_goes_on_behind_a_seal_stops_who_reads_it() {
    let mut group = Group::of(&["n1", "n2"]);
    group.settle(&[0, 1]);
    group.seal(1, "n1");
    let own = group.foundings.row_of(1, "n1").unwrap();
    let (mut chain, row) = (own.chain, row_of("n1", 1));
    chain.take_all(group.row(&row)).unwrap();
    let after = SEAL_CLOCK + 1;
    let message = RawValue::from_string(format!(r#"{{"stamp":[{after},1]}}"#)).unwrap();
    let cell = chain.cell("somebody", vec![0, 0], message);
    let text = serde_json::to_vec(&cell).unwrap();
    let mut reader = group.foundings.row_of(1, "n1").unwrap().chain;
    let sealed = reader.take_sent(&group.row(&row)[0]).unwrap();
    group.nodes[1].node.put_cell(1, sealed).unwrap();
    let behind = reader.take_sent(&text).unwrap();
    let told = group.nodes[1].node.put_cell(1, behind).unwrap_err();
    let (member, number) = (1, 2);
    let fault = MemberFault::BehindASeal { member, number };
    let generation = 1;
    assert_eq!(told, NodeFault::Member { generation, fault });
}

#[test]
fn another_dump_stops_who_reads_it() {
    let mut group = Group::of(&["n1", "n2"]);
    group.settle(&[0, 1]);
    group.ask(0, 1, None, &add_user("bob"), 1);
    group.settle(&[0, 1]);
    group.propose(&["n1", "n2"], None);
    while group.row(&row_of("n1", 2)).is_empty() {
        for at in [1, 0] {
            group.see_proposals(at);
            group.read(at);
            group.set(at);
        }
    }
    group.go_to(1);
    let text = group.row(&row_of("n1", 2))[0].clone();
    let other = String::from_utf8(text.to_vec())
        .unwrap()
        .replace("bob", "eve");
    let mut chain = group.nodes[1].node.generation().chain(1);
    let sent = chain.take_sent(other.as_bytes()).unwrap();
    let told = group.nodes[1].node.put_cell(1, sent).unwrap_err();
    let (generation, fault) = (2, MemberFault::OtherDump(1));
    assert_eq!(told, NodeFault::Member { generation, fault });
}

#[test]
fn who_follows_shows_the_generation_before_until_the_dump_has_ended() {
    let mut group = Group::of(&["n1", "n2"]);
    let observer = group.start(None);
    group.settle(&[0, 1, observer]);
    for user in 0..70 {
        group.ask(0, 1, None, &add_user(&format!("u{user}")), user);
        group.settle(&[0, 1, observer]);
    }
    assert_eq!(group.nodes[observer].node.history_length(1), Some(70));
    group.propose(&["n1", "n2"], None);
    let mut seen = Vec::new();
    for _ in 0..40 {
        for at in [0, 1] {
            group.see_proposals(at);
            group.read(at);
            group.set(at);
        }
        group.see_proposals(observer);
        group.read(observer);
        assert!(!group.set(observer));
        let shown = group.nodes[observer].node.dump().unwrap();
        let (generation, dump) = shown.expect("it shows one");
        assert_eq!(dump.len(), 70);
        seen.push(generation.number);
    }
    seen.dedup();
    assert_eq!(seen, [1, 2]);
}
