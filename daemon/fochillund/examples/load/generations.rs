//! How long callers wait while a group goes on to its next generation, and what observers cost its members.
use crate::group::Group;
use crate::store::Store;
use crate::{CHECK, MEMBERS};
use fochillund::ask::Members;
use serde_json::Value;
use std::time::{Duration, Instant};

const GRACE: Duration = Duration::from_secs(1);
const USERS: usize = 2_000;
const OBSERVERS: usize = 10;

/// Asks a call until it is answered, and gives the generation that answered it.
async fn answered(client: &mut Members, member: u32, id: &str, commands: &str) -> u64 {
    let told = client.call(member, id, commands).await;
    let (status, body) = told.expect("it is answered");
    assert_eq!(status.as_u16(), 200, "{}", String::from_utf8_lossy(&body));
    let told: Value = serde_json::from_slice(&body).expect("JSON");
    told["generation"].as_u64().expect("a generation")
}

/// A member that is killed is left out after its grace: how long a call waits that was asked when it had just gone.
async fn left_out(store: &Store) {
    let grace = GRACE.as_secs().to_string();
    let mut group = Group::start_with(store, "left", MEMBERS, &["--leave-out-after", &grace]);
    group.is_up().await;
    let mut client = group.client();
    answered(&mut client, 1, "before", CHECK).await;
    group.kill_last();
    let began = Instant::now();
    let generation = answered(&mut client, 1, "waits", CHECK).await;
    let waited = began.elapsed() - GRACE.min(began.elapsed());
    println!(
        "left out after {} s: a call waits {:.0} ms more, and is answered in generation {generation}",
        GRACE.as_secs(),
        waited.as_secs_f64() * 1000.0
    );
}

/// Asks one call after the other until one is answered in generation 2. Gives the longest, and when that first one was answered.
async fn asks_on(client: &mut Members, began: Instant) -> (Duration, Duration) {
    let mut longest = Duration::ZERO;
    for call in 0.. {
        let asked = Instant::now();
        let generation = answered(client, 1, &format!("on {call}"), CHECK).await;
        longest = longest.max(asked.elapsed());
        if generation > 1 {
            return (longest, began.elapsed());
        }
    }
    unreachable!("calls are counted without an end")
}

fn told(what: &str, (longest, first): (Duration, Duration)) {
    println!(
        "{what}: a call waits {:.0} ms at most, the first of the next generation is answered after {:.0} ms",
        longest.as_secs_f64() * 1000.0,
        first.as_secs_f64() * 1000.0
    );
}

/// Gives the group a policy of so many users, each assigned a role.
async fn with_users(client: &mut Members) {
    answered(client, 1, "role", r#"[{"name":"AddRole","role":"r"}]"#).await;
    let users: Vec<usize> = (0..USERS).collect();
    for few in users.chunks(32) {
        let commands = few.iter().map(|user| {
            format!(r#"{{"name":"AddUser","user":"u{user}"}},{{"name":"AssignUser","user":"u{user}","role":"r"}}"#)
        });
        let commands: Vec<String> = commands.collect();
        let commands = format!("[{}]", commands.join(","));
        answered(client, 1, &format!("users {}", few[0]), &commands).await;
    }
}

async fn proposed(store: &Store) {
    let group = Group::start(store, "users", MEMBERS);
    group.is_up().await;
    let mut client = group.client();
    with_users(&mut client).await;
    let began = Instant::now();
    let mut operator = group.propose();
    let waits = asks_on(&mut client, began).await;
    assert!(operator.wait().expect("it runs").success());
    told(&format!("a generation of {USERS} users proposed"), waits);
}

/// Rows of 60,000 cells and more: the next generation is proposed by whose row is near its end.
async fn at_the_end(store: &Store) {
    let group = Group::start(store, "full", MEMBERS);
    group.is_up().await;
    let mut client = group.client();
    while client.state(1).await.expect("it is up").taken[0] < 60_000 {
        for call in 0..1_000 {
            let sent = client.state(1).await.expect("it is up").taken[0];
            answered(&mut client, 1, &format!("{sent} {call}"), CHECK).await;
        }
    }
    let (longest, _) = asks_on(&mut client, Instant::now()).await;
    println!(
        "a generation of 60,000 cells ends: a call waits {:.0} ms at most",
        longest.as_secs_f64() * 1000.0
    );
}

/// The processor time of the members a call, in microseconds, while 16 callers ask.
async fn costs(group: &Group, name: &str, lasts: Duration) -> f64 {
    let spent = group.processor_time();
    let callers = (0..16).map(|caller| {
        let (mut client, name) = (group.client(), name.to_owned());
        tokio::spawn(async move {
            let began = Instant::now();
            let mut calls = 0;
            while began.elapsed() < lasts {
                let id = format!("{name} {caller} {calls}");
                answered(&mut client, caller % MEMBERS + 1, &id, CHECK).await;
                calls += 1;
            }
            calls
        })
    });
    let callers: Vec<_> = callers.collect();
    let mut calls = 0;
    for caller in callers {
        calls += caller.await.expect("it ends");
    }
    (group.processor_time() - spent) / f64::from(calls) * 1e6
}

async fn observed(store: &Store, lasts: Duration) {
    let mut group = Group::start(store, "observed", MEMBERS);
    group.is_up().await;
    let (mut alone, mut beside) = (0.0, 0.0);
    for turn in 0..3 {
        alone += costs(&group, &format!("alone {turn}"), lasts / 6).await;
        group.observe(OBSERVERS).await;
        beside += costs(&group, &format!("beside {turn}"), lasts / 6).await;
        group.unobserve();
    }
    println!(
        "{OBSERVERS} observers: the three members take {:.0} us a call, {:.0} without: {:+.1} %",
        beside / 3.0,
        alone / 3.0,
        (beside / alone - 1.0) * 100.0
    );
}

/// Prints a line each: how long a caller waits whose member waits for one that was killed, and is left out after its grace; how long callers wait at
/// most while a generation is proposed for a policy of 2,000 users, and when the first call was answered in it; the processor time of three members a
/// call, beside ten observers and without; and, over files, how long callers wait at most where rows are at their end.
pub async fn measure(store: &Store, lasts: Duration) {
    left_out(store).await;
    proposed(store).await;
    observed(store, lasts).await;
    if store.is_of_files() {
        at_the_end(store).await;
    }
}
