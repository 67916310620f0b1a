//! What a group did in all its generations, as its rows tell it.
use crate::judge::History;
use fochillun::Monitor;
use fochillund::founding::with_members;
use fochillund::generation::Foundings;
use fochillund::node::{Base, Node};
use rows::{sure_get, Engine, RowName};
use serde::Deserialize;
use serde_json::value::RawValue;

/// A generation that was not void.
pub struct Lived {
    pub generation: u64,
    /// Its founding file.
    pub file: String,
    pub records: Vec<String>,
}

#[derive(Deserialize)]
struct Record<'t> {
    #[serde(borrow)]
    command: &'t RawValue,
    #[serde(borrow)]
    answer: &'t RawValue,
}

/// Reads the rows of a group from the first generation on, as one that follows it.
pub async fn lived(engine: &dyn Engine) -> Vec<Lived> {
    let mut foundings = Foundings::new();
    for text in sure_get(engine, &RowName::founding(), 1).await.unwrap() {
        foundings.take(&text).unwrap();
    }
    let mut node: Node<()> = Node::begin(None, "", foundings, Base::FIRST).unwrap();
    let (mut all, mut read) = (Vec::new(), 0);
    while read < node.generation().number {
        let generation = node.generation().clone();
        read = generation.number;
        for member in node.followed() {
            let mut chain = generation.chain(member);
            for text in sure_get(engine, chain.row(), 1).await.unwrap() {
                node.put_cell(member, chain.take_sent(&text).unwrap())
                    .unwrap();
            }
        }
        node.turn().unwrap();
        // None is had of one that was void.
        if let Some(length) = node.history_length(read) {
            let records = node.records(read, 1..length + 1);
            all.push(Lived {
                generation: read,
                file: generation.file,
                records,
            });
        }
    }
    all
}

/// Each generation begins with the policy that the one before has left. Gives what it did beside, and what the second implementation has to judge.
pub fn check_beginnings(lived: Vec<Lived>) -> (Vec<(u64, Vec<String>)>, Vec<History>) {
    let mut before: Option<Monitor> = None;
    let (mut own, mut histories) = (Vec::new(), Vec::new());
    for it in lived {
        let begins = before
            .as_mut()
            .map_or(String::new(), |it| it.dump().unwrap());
        let begins: Vec<&str> = begins.lines().collect();
        let mut monitor = Monitor::open(it.file.as_bytes()).unwrap();
        for (at, text) in it.records.iter().enumerate() {
            let record: Record<'_> = serde_json::from_str(text).unwrap();
            let command = record.command.get();
            if let Some(line) = begins.get(at) {
                assert!(line.contains(command), "another policy: {command}, {line}");
                assert_eq!(record.answer.get(), "\"Done\"");
            }
            let _ = monitor.apply(command).unwrap();
        }
        assert!(it.records.len() >= begins.len(), "a dump that is not whole");
        own.push((it.generation, it.records[begins.len()..].to_vec()));
        histories.push(History {
            founding: with_members(&it.file, 1),
            records: it.records,
        });
        before = Some(monitor);
    }
    (own, histories)
}
