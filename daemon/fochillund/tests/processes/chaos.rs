//! Groups of processes that are killed, stopped and doubled, and whose clocks jump, while callers ask: over each engine, whose servers are killed,
//! stopped and full; over networks that lose, delay and part; and while generations are proposed.
mod asking;
mod changing;
mod figures;
mod lived;

use crate::group::{founding, named_release, Group};
use crate::judge::{self, History};
use crate::store::Store;
use asking::{ask, check_calls, Asked, Shared};
use changing::Operator;
pub use figures::Figures;
use fochillund::callers::State;
use fochillund::node::Phase;
use lived::{check_beginnings, lived};
use nix::sys::signal::{kill, Signal};
use nix::unistd::Pid;
use rand::rngs::StdRng;
use rand::{Rng, SeedableRng};
use servers::clock::Clock;
use std::sync::atomic::{AtomicBool, Ordering};
use std::sync::Arc;
use std::time::{Duration, Instant};
use tokio::task::JoinHandle;

const CALLERS: u64 = 5;
const SIDE_BY_SIDE: usize = 4;
/// So many seconds a clock jumps at most, either way: three years.
pub const JUMP: i64 = 100_000_000;

/// What befalls the group at a moment. A process that is stopped goes on after a while.
async fn befall(group: &mut Group, clocks: &[Clock], random: &mut StdRng, figures: &mut Figures) {
    let member = random.gen_range(1..=group.members());
    match random.gen_range(0..11) {
        0..=4 => {
            figures.count("a member killed");
            group.kill(member);
            if let Some(release) = named_release() {
                let goes_over = random.gen::<bool>();
                group.put_release(member, goes_over.then_some(&*release));
            }
        }
        5 => {
            figures.count("all members killed");
            (1..=group.members()).for_each(|member| group.kill(member));
        }
        6 | 7 => {
            figures.count("second processes");
            group.start_elsewhere(member);
        }
        8 => {
            figures.count("a member's clock jumps");
            let clock = &clocks[member as usize - 1];
            clock.jump(random.gen_range(-JUMP..JUMP), random.gen_range(0..30));
        }
        _ => {
            let Some(process) = group.process(member) else {
                return;
            };
            figures.count("a member stopped for a while");
            let process = Pid::from_raw(process.id() as i32);
            kill(process, Signal::SIGSTOP).unwrap();
            tokio::time::sleep(Duration::from_millis(random.gen_range(20..200))).await;
            kill(process, Signal::SIGCONT).unwrap();
        }
    }
}

/// A member's history as it stands, where the member answers.
async fn history(group: &Group, member: u32) -> Option<Vec<String>> {
    let mut client = group.client();
    let mut records: Vec<String> = Vec::new();
    loop {
        let more = client.records(member, records.len() as u64 + 1).await;
        let more = more.ok()?;
        if more.is_empty() {
            return Some(records);
        }
        records.extend(more.iter().map(|it| it.get().to_owned()));
    }
}

/// What each member tells of itself.
async fn states(group: &Group) -> Vec<std::io::Result<State>> {
    let mut states = Vec::new();
    for member in 1..=group.members() {
        states.push(group.client().state(member).await);
    }
    states
}

/// Waits until all members have so many records, and gives their history.
async fn settled(group: &mut Group, length: usize, longest: Duration) -> Vec<String> {
    let began = Instant::now();
    loop {
        if began.elapsed() > longest {
            panic!("not settled: {:#?}", states(group).await);
        }
        keep(group);
        let mut histories = Vec::new();
        for member in 1..=group.members() {
            histories.extend(history(group, member).await);
        }
        let is_whole = |history: &Vec<String>| history.len() >= length;
        if histories.len() == group.members() as usize && histories.iter().all(is_whole) {
            assert!(histories.windows(2).all(|both| both[0] == both[1]));
            return histories.swap_remove(0);
        }
        tokio::time::sleep(Duration::from_millis(20)).await;
    }
}

/// Starts anew what has ended. Processes end by a kill, or since another has replaced them.
fn keep(group: &mut Group) {
    let ended = group.keep();
    if ended.iter().any(|status| !matches!(status, None | Some(3))) {
        panic!("processes ended with {ended:?}:\n{}", group.last_said());
    }
}

/// Waits until all processes are in the same generation, which goes on and in which nobody waits, and no other was proposed.
async fn settled_at_last(group: &mut Group, longest: Duration) {
    let began = Instant::now();
    loop {
        keep(group);
        let states = states(group).await;
        let generations = states
            .iter()
            .map(|it| it.as_ref().map_or(0, |it| it.generation));
        let is_one = generations
            .collect::<std::collections::BTreeSet<u64>>()
            .len()
            == 1;
        let rests = |state: &std::io::Result<State>| {
            state.as_ref().is_ok_and(|it| {
                let is_quiet = it.queued == 0 && it.sent == 0 && it.waits_for.is_empty();
                is_quiet && matches!(it.phase, Phase::Serves | Phase::Follows)
            })
        };
        if is_one && states.iter().all(rests) {
            return;
        }
        assert!(
            began.elapsed() < longest,
            "not settled: {states:#?}\n{}",
            group.last_said()
        );
        tokio::time::sleep(Duration::from_millis(20)).await;
    }
}

/// Things befall a group, among them other generations where it `changes`.
async fn chaos(store: &Store, seed: u64, changes: bool) -> Figures {
    let mut random = StdRng::seed_from_u64(seed);
    let members = random.gen_range(if changes { 2..=4 } else { 1..=4 });
    let clocks: Vec<Clock> = (0..members).map(|_| Clock::default()).collect();
    let starts = (1..).zip(&clocks).map(|(member, clock)| {
        let mut start = store.start(seed, member);
        start.by.extend(clock.words());
        start.rows.push("--keep-rows".to_owned());
        start
    });
    let mut group = Group::over(starts.collect());
    let mut operator = Operator::of(store.start(seed, 1).rows);
    let release = named_release();
    (1..=members).for_each(|member| group.put_release(member, release.as_deref()));
    group.start_all();
    // Whoever founds a group names its rules, and the other release may not know what these sources call them.
    while release.is_some() && group.client().state(1).await.is_err() {
        tokio::time::sleep(Duration::from_millis(10)).await;
    }
    let shared = Arc::new(Shared::default());
    let callers: Vec<_> = (0..CALLERS)
        .map(|caller| {
            let seed = seed * CALLERS + caller;
            let folder = group.folder().to_owned();
            tokio::spawn(ask(folder, members, seed, Arc::clone(&shared)))
        })
        .collect();
    let (began, mut seen) = (Instant::now(), Vec::new());
    let mut figures = Figures::default();
    let lasts = store.lasts() * if changes { 3 } else { 1 };
    while began.elapsed() < lasts {
        befall(&mut group, &clocks, &mut random, &mut figures).await;
        tokio::time::sleep(store.pause().mul_f64(random.gen())).await;
        keep(&mut group);
        if changes {
            operator.act(&group, &mut random, &mut figures);
            continue;
        }
        let member = random.gen_range(1..=members);
        seen.extend(history(&group, member).await);
    }
    shared.ends.store(true, Ordering::SeqCst);
    operator.end();
    let calls = ended(&mut group, callers, store.patience()).await;
    let commands = calls.iter().map(Asked::commands).sum();
    let (histories, judged) = match changes {
        true => {
            settled_at_last(&mut group, store.patience() * 4).await;
            check_beginnings(lived(&*operator.engine(&group).await).await)
        }
        false => {
            let records = settled(&mut group, commands, store.patience() * 4).await;
            assert!(seen.iter().all(|before| records.starts_with(before)));
            let founding = founding(1);
            let judged = History {
                founding,
                records: records.clone(),
            };
            (vec![(1, records)], vec![judged])
        }
    };
    check_calls(&calls, &histories);
    judge::check(&judged);
    figures.add("generations", histories.len());
    let forgotten = |call: &&Asked| matches!(call, Asked::Forgotten { .. });
    figures.add("calls forgotten", calls.iter().filter(forgotten).count());
    figures.count("runs without a fault");
    figures.add("calls, each answered once", calls.len());
    figures.add("commands", commands);
    figures
}

/// Waits until all callers were answered, while members are kept, and gives what they asked. After so long all processes are killed once more: a
/// caller may know the socket of one that is gone. Each time they have longer: a machine that does much else is slow to start them.
async fn ended(
    group: &mut Group,
    callers: Vec<JoinHandle<Vec<Asked>>>,
    mut patience: Duration,
) -> Vec<Asked> {
    let mut last_kill = tokio::time::Instant::now();
    let mut calls = Vec::new();
    for mut caller in callers {
        loop {
            tokio::select! {
                told = &mut caller => match told {
                    Ok(told) => break calls.extend(told),
                    Err(fault) => panic!("{fault}:\n{}", group.last_said()),
                },
                () = tokio::time::sleep(Duration::from_millis(50)) => keep(group),
                () = tokio::time::sleep_until(last_kill + patience) => {
                    (1..=group.members()).for_each(|member| group.kill(member));
                    last_kill = tokio::time::Instant::now();
                    patience *= 2;
                }
            }
        }
    }
    calls
}

/// How many runs there are: `CHAOS_RUNS`, or else so many; from the seed `CHAOS_SEED` on.
fn seeds(runs: u64) -> Vec<u64> {
    let number = |name: &str| std::env::var(name).ok().and_then(|it| it.parse().ok());
    let first = number("CHAOS_SEED").unwrap_or(0);
    (first..first + number("CHAOS_RUNS").unwrap_or(runs)).collect()
}

fn run(store: &Store, seed: u64, changes: bool) -> Figures {
    println!("seed {seed}");
    let mut runtime = tokio::runtime::Builder::new_current_thread();
    let runtime = runtime.enable_all().build();
    runtime.unwrap().block_on(chaos(store, seed, changes))
}

/// Runs groups side by side over one store, which things befall too meanwhile.
fn whatever_befalls(store: &Store, runs: u64, changes: bool) {
    let (mut figures, ends) = (Figures::default(), AtomicBool::new(false));
    let seeds = seeds(runs);
    std::thread::scope(|scope| {
        let befalling = scope.spawn(|| store.befall_until(&ends, seeds[0]));
        for few in seeds.chunks(SIDE_BY_SIDE) {
            let running = few
                .iter()
                .map(|&seed| scope.spawn(move || run(store, seed, changes)));
            let running: Vec<_> = running.collect();
            for each in running {
                match each.join() {
                    Ok(more) => figures.add_all(more),
                    Err(fault) => {
                        ends.store(true, Ordering::SeqCst);
                        std::panic::resume_unwind(fault);
                    }
                }
            }
        }
        ends.store(true, Ordering::SeqCst);
        figures.add_all(befalling.join().unwrap());
    });
    let kind = if changes { ", generations" } else { "" };
    for line in figures.to_string().lines() {
        println!("chaos over {}{kind}: {line}", store.name());
    }
}

/// The same over a store that not each machine lets a test make. Where it can't be made it is told.
fn whatever_befalls_where_it_can(store: Result<Store, String>, runs: u64) {
    match store {
        Ok(store) => whatever_befalls(&store, runs, false),
        Err(why) => {
            let why = why.lines().next().unwrap_or_default();
            println!("passed over: chaos, since this machine makes no such store: {why}");
        }
    }
}

#[test]
fn whatever_befalls_files_each_call_is_answered_once_and_rightly() {
    whatever_befalls(&Store::files(), 40, false);
}

#[test]
fn whatever_befalls_a_small_disk_each_call_is_answered_once_and_rightly() {
    whatever_befalls_where_it_can(Store::small_disk(), 4);
}

#[test]
fn whatever_befalls_etcd_each_call_is_answered_once_and_rightly() {
    whatever_befalls(&Store::etcd(), 8, false);
}

#[test]
fn whatever_befalls_postgresql_each_call_is_answered_once_and_rightly() {
    whatever_befalls(&Store::postgres(), 8, false);
}

#[test]
fn whatever_befalls_a_network_of_etcd_each_call_is_answered_once_and_rightly() {
    whatever_befalls_where_it_can(Store::etcd_over_a_network(), 2);
}

#[test]
fn whatever_befalls_a_network_of_postgresql_each_call_is_answered_once_and_rightly() {
    whatever_befalls_where_it_can(Store::postgres_over_a_network(), 2);
}

#[test]
fn whatever_befalls_files_and_generations_each_call_is_answered_once_and_rightly() {
    whatever_befalls(&Store::files(), 20, true);
}

#[test]
fn whatever_befalls_etcd_and_generations_each_call_is_answered_once_and_rightly() {
    whatever_befalls(&Store::etcd(), 4, true);
}

#[test]
fn whatever_befalls_postgresql_and_generations_each_call_is_answered_once_and_rightly() {
    whatever_befalls(&Store::postgres(), 4, true);
}
