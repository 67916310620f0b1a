//! Callers, what they ask, and what has to come of it.
use rand::rngs::StdRng;
use rand::seq::SliceRandom;
use rand::{Rng, SeedableRng};
use serde::Deserialize;
use serde_json::value::RawValue;
use std::collections::HashMap;
use std::path::PathBuf;
use std::sync::atomic::{AtomicBool, AtomicUsize, Ordering};
use std::sync::Arc;
use std::time::Duration;

/// So long a caller asks for one answer.
const PATIENCE: Duration = Duration::from_secs(240);

/// What became of a call.
pub enum Asked {
    Answered(Answered),
    /// Two generations ended before it was answered: whether these commands were carried out is not known any more.
    Forgotten {
        commands: usize,
    },
}

impl Asked {
    /// How many commands it had that were answered.
    pub fn commands(&self) -> usize {
        match self {
            Asked::Answered(call) => call.commands,
            Asked::Forgotten { .. } => 0,
        }
    }
}

/// A call that was answered.
pub struct Answered {
    /// When it was asked and when it was answered, in the order of all such moments.
    asked: usize,
    answered: usize,
    /// The generation that has it.
    generation: u64,
    /// How many commands it had.
    commands: usize,
    records: Vec<String>,
}

#[derive(Deserialize)]
struct Told {
    generation: u64,
    records: Vec<Box<RawValue>>,
}

/// What callers share.
#[derive(Default)]
pub struct Shared {
    moments: AtomicUsize,
    pub ends: AtomicBool,
}

impl Shared {
    fn now(&self) -> usize {
        self.moments.fetch_add(1, Ordering::SeqCst)
    }
}

/// A command that may be done, denied, granted or refused.
fn command(random: &mut StdRng) -> String {
    let user = ["ann", "bob", "cat"].choose(random).unwrap();
    let role = ["clerk", "nurse", "head"].choose(random).unwrap();
    let other = ["clerk", "nurse", "head"].choose(random).unwrap();
    let session = ["s1", "s2"].choose(random).unwrap();
    let operation = ["read", "write"].choose(random).unwrap();
    match random.gen_range(0..12) {
        0 => format!(r#"{{"name":"AddUser","user":"{user}"}}"#),
        1 => format!(r#"{{"name":"AddRole","role":"{role}"}}"#),
        2 => format!(r#"{{"name":"DeleteUser","user":"{user}"}}"#),
        3 => format!(r#"{{"name":"AssignUser","user":"{user}","role":"{role}"}}"#),
        4 => format!(r#"{{"name":"DeassignUser","user":"{user}","role":"{role}"}}"#),
        5 => format!(
            r#"{{"name":"GrantPermission","operation":"{operation}","object":"chart","role":"{role}"}}"#
        ),
        6 => format!(r#"{{"name":"AddInheritance","ascendant":"{role}","descendant":"{other}"}}"#),
        7 => format!(
            r#"{{"name":"CreateSession","user":"{user}","session":"{session}","roles":["{role}"]}}"#
        ),
        8 => format!(r#"{{"name":"DeleteSession","user":"{user}","session":"{session}"}}"#),
        9 => r#"{"name":"CreateSsdSet","set":"x","roles":["clerk","nurse"],"n":2}"#.to_owned(),
        10 => format!(r#"{{"name":"AssignedRoles","user":"{user}"}}"#),
        _ => format!(
            r#"{{"name":"CheckAccess","session":"{session}","operation":"{operation}","object":"chart"}}"#
        ),
    }
}

/// Asks calls until it is to end, each again by its id until it is answered.
pub async fn ask(folder: PathBuf, members: u32, seed: u64, shared: Arc<Shared>) -> Vec<Asked> {
    let mut random = StdRng::seed_from_u64(seed);
    let mut client = fochillund::ask::Members::of(&folder, PATIENCE);
    let mut calls = Vec::new();
    while !shared.ends.load(Ordering::SeqCst) {
        let commands: Vec<String> = (0..random.gen_range(1..4))
            .map(|_| command(&mut random))
            .collect();
        let (member, id) = (
            random.gen_range(1..=members),
            format!("{seed} {}", calls.len()),
        );
        let asked = shared.now();
        let text = format!("[{}]", commands.join(","));
        let (status, body) = client.call(member, &id, &text).await.unwrap();
        let answered = shared.now();
        if status.as_u16() == 404 {
            // There is no member of this number now.
            tokio::time::sleep(Duration::from_millis(5)).await;
            continue;
        }
        let commands = commands.len();
        if status.as_u16() == 410 {
            calls.push(Asked::Forgotten { commands });
            continue;
        }
        assert_eq!(status.as_u16(), 200, "{}", String::from_utf8_lossy(&body));
        let told: Told = serde_json::from_slice(&body).unwrap();
        calls.push(Asked::Answered(Answered {
            asked,
            answered,
            generation: told.generation,
            commands,
            records: told.records.iter().map(|it| it.get().to_owned()).collect(),
        }));
    }
    calls
}

/// Each call's records stand in the history of its generation, together and in order, behind those of each call that was answered before it was asked.
pub fn check_calls(calls: &[Asked], histories: &[(u64, Vec<String>)]) {
    let mut places: HashMap<(u64, &str), (u64, usize)> = HashMap::new();
    for (generation, history) in histories {
        for (at, record) in history.iter().enumerate() {
            let key = (*generation, record.as_str());
            let there = places.insert(key, (*generation, at));
            assert_eq!(there, None, "a record stands twice");
        }
    }
    let (mut told, mut forgotten) = (Vec::new(), 0);
    for call in calls {
        let call = match call {
            Asked::Answered(call) => call,
            Asked::Forgotten { commands } => {
                forgotten += commands;
                continue;
            }
        };
        assert_eq!(call.records.len(), call.commands);
        let first = places[&(call.generation, call.records[0].as_str())];
        let of = histories.iter().find(|(it, _)| *it == call.generation);
        let history = &of.expect("a generation that lived").1;
        assert_eq!(&history[first.1..first.1 + call.commands], &call.records);
        told.push((call, first));
    }
    for (before, at) in &told {
        for (after, then) in &told {
            assert!(before.answered > after.asked || at < then, "out of time");
        }
    }
    let commands: usize = told.iter().map(|(call, _)| call.commands).sum();
    let may_be = commands..=commands + forgotten;
    assert!(
        may_be.contains(&places.len()),
        "a call was carried out twice"
    );
}
