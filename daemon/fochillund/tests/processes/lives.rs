//! A group that lives through many generations while callers ask it.
use crate::generations::state_where;
use crate::group::{founding, Group};
use crate::judge::{self, History};
use fochillund::ask::Members;
use fochillund::callers::State;
use fochillund::founding::LEAST_SENT_LIMIT;
use fochillund::node::Phase;
use rows::{Engine, Fault, RowName};
use serde_json::Value;
use std::collections::HashSet;
use std::sync::Arc;
use std::time::{Duration, Instant};
use tokio::sync::Semaphore;

/// The generations that a group lives through at least.
const GENERATIONS: u64 = 10;

/// What a group is asked.
struct Life {
    /// How many calls at least.
    calls: usize,
    /// By so many callers at a time.
    callers: u32,
    /// How many cells of a row are used in a generation.
    cells: u64,
    /// How many calls there are at most between two looks at the group, so that no generation comes and goes unseen.
    calls_a_look: usize,
}

impl Life {
    /// As many calls as `LIFE_CALLS` says, by 64 callers; or else as few as fill ten short generations.
    fn wanted() -> Life {
        let calls = std::env::var("LIFE_CALLS").ok();
        match calls.and_then(|it| it.parse().ok()) {
            Some(calls) => Life {
                calls,
                callers: 64,
                cells: 5_000,
                calls_a_look: 2_000,
            },
            None => Life {
                calls: 0,
                callers: 3,
                cells: 12,
                calls_a_look: 4,
            },
        }
    }

    fn margin(&self) -> String {
        (LEAST_SENT_LIMIT - self.cells).to_string()
    }
}

/// A change of one of fifty users, and a question that names this call alone.
fn commands(caller: u32, call: usize) -> String {
    let change = ["AddUser", "DeleteUser"][call / 7 % 2];
    let user = call % 50;
    format!(
        r#"[{{"name":"{change}","user":"u{user}"}},{{"name":"AssignedRoles","user":"{caller}-{call}"}}]"#
    )
}

/// Asks one call for each permit, until there are none any more. Gives how many.
async fn ask(mut client: Members, caller: u32, permits: Arc<Semaphore>) -> usize {
    for call in 0.. {
        let Ok(permit) = permits.acquire().await else {
            return call;
        };
        permit.forget();
        let (id, commands) = (format!("{caller} {call}"), commands(caller, call));
        let told = client.call(caller % 3 + 1, &id, &commands).await;
        let (status, body) = told.unwrap();
        assert_eq!(status.as_u16(), 200, "{}", String::from_utf8_lossy(&body));
    }
    unreachable!("calls are counted without an end")
}

/// The history of a generation, as a member has it.
async fn history(client: &mut Members, node: &str, generation: u64) -> Vec<String> {
    let mut records: Vec<String> = Vec::new();
    loop {
        let from = records.len() as u64 + 1;
        let told = client
            .records_of(node, Some(generation), from)
            .await
            .unwrap();
        if told.records.is_empty() {
            return records;
        }
        records.extend(told.records.iter().map(|it| it.get().to_owned()));
    }
}

/// Asks a group as is wanted, and gives its histories, generation by generation, and how many calls were answered.
async fn lived(group: &Group, life: &Life) -> (Vec<Vec<String>>, usize) {
    let permits = Arc::new(Semaphore::new(0));
    let callers = (0..life.callers)
        .map(|caller| tokio::spawn(ask(group.client(), caller, Arc::clone(&permits))));
    let callers: Vec<_> = callers.collect();
    let (mut client, mut histories) = (group.client(), Vec::new());
    let mut given = 0;
    loop {
        let over = histories.len() as u64;
        let now = client.state(1).await.unwrap().generation;
        assert!(now <= over + 2, "a generation was not looked at");
        if now == over + 2 {
            histories.push(history(&mut client, "n1", over + 1).await);
            continue;
        }
        if permits.available_permits() == 0 {
            if now > GENERATIONS && given >= life.calls {
                break;
            }
            permits.add_permits(life.calls_a_look);
            given += life.calls_a_look;
        }
        tokio::time::sleep(Duration::from_millis(5)).await;
    }
    permits.close();
    let mut answered = 0;
    for caller in callers {
        answered += caller.await.unwrap();
    }
    // All was answered: what else the group goes on to has nothing of it.
    let serves = |state: &State| state.phase == Phase::Serves;
    let now = state_where(group, "n1", serves).await.generation;
    for generation in histories.len() as u64 + 1..=now {
        histories.push(history(&mut client, "n1", generation).await);
    }
    (histories, answered)
}

/// The questions of all histories, each of which names its call: none stands there twice. Gives how many.
fn questions(histories: &[Vec<String>]) -> usize {
    let mut seen = HashSet::new();
    for record in histories.iter().flatten() {
        let record: Value = serde_json::from_str(record).unwrap();
        let command = &record["command"];
        if command["name"] == "AssignedRoles" {
            let user = command["user"].as_str().unwrap().to_owned();
            assert!(seen.insert(user), "carried out twice: {record}");
        }
    }
    seen.len()
}

/// Waits until a row of a generation that nobody asks for is trimmed.
async fn trimmed(group: &Group, node: &str, generation: u64) {
    let engine = rows::Files::of(group.folder());
    let row = RowName::of_node(node, generation).unwrap();
    let began = Instant::now();
    while !matches!(engine.get(&row, 1).await, Err(Fault::Trimmed(_))) {
        assert!(
            began.elapsed() < Duration::from_secs(60),
            "it is not trimmed"
        );
        tokio::time::sleep(Duration::from_millis(10)).await;
    }
}

#[tokio::test]
async fn a_group_lives_through_ten_generations_and_each_call_is_answered_once() {
    let life = Life::wanted();
    let (mut group, margin) = (Group::of(3), life.margin());
    for member in 1..=3 {
        group.start(member, &["--margin", &margin]);
    }
    state_where(&group, "n1", |_| true).await;
    let (histories, answered) = lived(&group, &life).await;
    let generations = histories.len() as u64;
    assert!(generations > GENERATIONS && answered >= life.calls);
    assert_eq!(questions(&histories), answered);
    trimmed(&group, "n2", generations - 2).await;
    group.kill(2);
    group.start(2, &["--margin", &margin]);
    state_where(&group, "n2", |state| state.phase == Phase::Serves).await;
    let all = histories.into_iter().map(|records| History {
        founding: founding(1),
        records,
    });
    judge::check(&all.collect::<Vec<_>>());
    println!("{answered} calls in {generations} generations");
}
