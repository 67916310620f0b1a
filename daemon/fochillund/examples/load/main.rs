//! How fast a group of three processes is, beside a bare set and a bare exchange, on the disk of a folder or over an engine.
//!
//!     cargo run --release --example load -- FOLDER|etcd1|etcd3|postgresql [SECONDS [calls|generations]]
//!
//! Behind an engine's word stands `+0.5` for one from which, and to which, all is under way for half a millisecond.
//!
//! Prints how long half of the bare sets took at most, and of the bare exchanges: [`exchange::bare_exchange`] says what these are. Then a line for one
//! caller and one for 64: calls a second; how long half of the calls took at most, and 99 of 100, in milliseconds; the first of
//! these in bare sets; messages a call; and the processor time of the three members a call, in microseconds. Then what an idle member takes, how long
//! callers wait while their member is moved, and, over files, how long a member is made anew that has 60,000 cells. Of generations it prints what
//! [`generations::measure`] says.
mod exchange;
mod generations;
mod group;
mod store;

use bytes::Bytes;
use fochillund::ask::Members;
use group::{processor_time, Group};
use rows::{sure_set, Engine, RowName};
use std::path::PathBuf;
use std::time::{Duration, Instant};
use store::Store;

const MEMBERS: u32 = 3;
const MOVES: usize = 7;
const CHECK: &str = r#"[{"name":"CheckAccess","session":"s","operation":"read","object":"chart"}]"#;

/// The middle and the 99th of a hundred, in milliseconds.
fn spread(mut times: Vec<Duration>) -> (f64, f64) {
    times.sort();
    let at = |share: usize| times[(times.len() - 1) * share / 100].as_secs_f64() * 1000.0;
    (at(50), at(99))
}

async fn bare_set(engine: &dyn Engine, lasts: Duration) -> f64 {
    let row = RowName::of_node("bare", 1).expect("a name");
    let text = Bytes::from(vec![b'x'; 400]);
    let (began, mut times, mut number) = (Instant::now(), Vec::new(), 1);
    while began.elapsed() < lasts {
        let asked = Instant::now();
        let told = sure_set(engine, &row, number, std::slice::from_ref(&text)).await;
        told.expect("it is set");
        times.push(asked.elapsed());
        number += 1;
    }
    spread(times).0
}

async fn caller(folder: PathBuf, caller: u32, lasts: Duration) -> Vec<Duration> {
    let mut client = Members::of(&folder, Duration::from_secs(60));
    let (began, mut times) = (Instant::now(), Vec::new());
    while began.elapsed() < lasts {
        let (asked, id) = (Instant::now(), format!("{caller} {}", times.len()));
        let told = client.call(caller % MEMBERS + 1, &id, CHECK).await;
        assert_eq!(told.expect("it is answered").0.as_u16(), 200);
        times.push(asked.elapsed());
    }
    times
}

async fn load(group: &Group, callers: u32, lasts: Duration, set: f64) {
    let (spent, own) = (group.processor_time(), processor_time(std::process::id()));
    let sent = group.sent().await;
    let calling = (0..callers).map(|it| tokio::spawn(caller(group.folder.clone(), it, lasts)));
    let calling: Vec<_> = calling.collect();
    let mut times = Vec::new();
    for calls in calling {
        times.extend(calls.await.expect("it ends"));
    }
    let (spent, own) = (
        group.processor_time() - spent,
        processor_time(std::process::id()) - own,
    );
    let sent = group.sent().await - sent;
    let calls = times.len() as f64;
    let (half, most) = spread(times);
    println!(
        "{callers} callers: {:.0} calls/s, p50 {half:.2} ms = {:.1} sets + {:.2} ms, p99 {most:.2} ms, {:.2} messages a call, {:.0} us a call, and {:.0} of who asks",
        calls / lasts.as_secs_f64(),
        half / set,
        half - half.min(set * (half / set).floor()),
        sent as f64 / calls,
        spent / calls * 1e6,
        own / calls * 1e6
    );
}

async fn idle(group: &Group, lasts: Duration) {
    let spent = group.processor_time();
    tokio::time::sleep(lasts).await;
    let idle = (group.processor_time() - spent) / lasts.as_secs_f64() / f64::from(MEMBERS);
    println!("idle: {:.2} % of a processor a member", idle * 100.0);
}

/// Moves the first member to another folder, as to another machine, while somebody asks it. Gives the longest that a call took.
async fn moved(group: &mut Group, to: PathBuf, number: usize) -> Duration {
    let patience = Duration::ZERO;
    let mut old = Members::of(&group.first_folder, patience);
    let mut new = Members::of(&to, patience);
    let is_answered = |told: std::io::Result<(hyper::StatusCode, Vec<u8>)>| {
        told.is_ok_and(|(status, _)| status.as_u16() == 200)
    };
    let mut longest = Duration::ZERO;
    group.move_first(to);
    for call in 0.. {
        let (asked, id) = (Instant::now(), format!("moved {number} {call}"));
        let is_new = loop {
            if is_answered(old.call(1, &id, CHECK).await) {
                break false;
            }
            if is_answered(new.call(1, &id, CHECK).await) {
                break true;
            }
            tokio::time::sleep(Duration::from_millis(1)).await;
        };
        longest = longest.max(asked.elapsed());
        if is_new {
            break;
        }
    }
    longest
}

async fn moves(group: &mut Group) {
    let mut times = Vec::new();
    for number in 0..MOVES {
        let to = group.folder.join(format!("machine{number}"));
        times.push(moved(group, to, number).await);
    }
    let most = times.iter().max().copied().unwrap_or_default();
    println!(
        "a member moved: its callers wait {:.0} ms, the longest of {MOVES} {:.0} ms",
        spread(times).0,
        most.as_secs_f64() * 1000.0
    );
}

async fn made_anew(store: &Store) {
    let mut group = Group::start(store, "alone", 1);
    group.is_up().await;
    let mut client = group.client();
    for number in 0..60_000 {
        let told = client.call(1, &number.to_string(), CHECK).await;
        assert_eq!(told.expect("it is answered").0.as_u16(), 200);
    }
    group.kill();
    let began = Instant::now();
    group.spawn_first();
    while group.client().state(1).await.is_err() {
        tokio::time::sleep(Duration::from_millis(1)).await;
    }
    println!(
        "60,000 cells: up after {:.2} s",
        began.elapsed().as_secs_f64()
    );
    client.call(1, "last", CHECK).await.expect("it is answered");
    println!(
        "60,000 cells: the first answer after {:.2} s",
        began.elapsed().as_secs_f64()
    );
}

/// Gives the group that was asked.
async fn calls(store: &Store, lasts: Duration) -> Group {
    let group = Group::start(store, "three", MEMBERS);
    group.is_up().await;
    // It is closed before calls are measured: an engine that is open hears of all that is set, and takes time for it.
    let set = bare_set(&*store.open().await, lasts / 4).await;
    println!("a bare set: p50 {set:.2} ms");
    let exchange = exchange::bare_exchange(store);
    println!(
        "a bare exchange of two sets: p50 {exchange:.2} ms = {:.1} sets",
        exchange / set
    );
    load(&group, 1, lasts / 2, set).await;
    load(&group, 64, lasts, set).await;
    group
}

async fn measure(store: &Store, lasts: Duration) {
    let mut group = calls(store, lasts).await;
    idle(&group, lasts).await;
    moves(&mut group).await;
    drop(group);
    if store.is_of_files() {
        made_anew(store).await;
    }
}

#[tokio::main(flavor = "current_thread")]
async fn main() {
    let words: Vec<String> = std::env::args().skip(1).collect();
    let store = Store::of(words.first().expect("a folder, or an engine"));
    let lasts = words.get(1).and_then(|it| it.parse().ok()).unwrap_or(5);
    let lasts = Duration::from_secs(lasts);
    match words.get(2).map(String::as_str) {
        Some("generations") => generations::measure(&store, lasts).await,
        Some("calls") => drop(calls(&store, lasts).await),
        _ => measure(&store, lasts).await,
    }
    let _ = std::fs::remove_dir_all(store.folder());
}
