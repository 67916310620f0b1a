//! Groups of one to four members over rows in memory: random schedules in which processes die, are made anew of their row or of an old prefix of
//! it, run twice, and lose replies; and in which generations are proposed, of other nodes and of other founding files, rows are sealed by others, and
//! some processes only follow. Each schedule is checked from outside, by what callers were told, what rows hold and what processes show.
//!
//! `SIMULATION_SCHEDULES` says how many there are, and `SIMULATION_FIRST` the seed of the first. `SIMULATION_SEED` plays one alone, which tells its
//! steps when it fails.
mod checks;
mod commands;
#[path = "../judge/mod.rs"]
mod judge;
mod loss;
mod process;
mod schedule;
mod seen;
mod world;

use judge::History;
use rand::Rng;
use std::panic::{catch_unwind, AssertUnwindSafe};
use world::{Figures, World};

const SCHEDULES: u64 = 10_000;

/// How many histories the second implementation plays.
const PLAYED: u64 = 40;

fn number_of(name: &str) -> Option<u64> {
    let text = std::env::var(name).ok()?;
    Some(text.parse().expect("a number"))
}

/// Plays one schedule. Gives the history of each generation.
fn play(seed: u64, is_told: bool) -> (Figures, Vec<History>) {
    let mut world = World::new(seed, is_told);
    if world.random.gen_ratio(1, 20) {
        loss::play(&mut world);
        return (world.figures, Vec::new());
    }
    schedule::play(&mut world);
    if world.random.gen_ratio(7, 8) {
        end(&mut world);
    }
    checks::check_order(&world.seen);
    let histories = checks::check_answers(&mut world);
    checks::count(&mut world);
    (world.figures, histories)
}

/// Everything is brought everywhere, each call is asked again, and that is brought everywhere too.
fn end(world: &mut World) {
    schedule::settle(world);
    if world.random.gen() {
        while !world.processes.is_empty() {
            world.kill(0);
        }
        schedule::settle(world);
    }
    let may_be_full = world.seen.may_be_full;
    if !may_be_full {
        checks::check_all_is_brought(world);
    }
    schedule::ask_all_again(world);
    schedule::settle(world);
    if !may_be_full {
        checks::check_all_is_brought(world);
    }
}

impl Figures {
    fn add(&mut self, other: Figures) {
        self.steps += other.steps;
        self.processes += other.processes;
        self.fenced += other.fenced;
        self.landed_after_death += other.landed_after_death;
        self.unsure += other.unsure;
        self.old_prefixes += other.old_prefixes;
        self.records += other.records;
        self.answers += other.answers;
        self.asked_again += other.asked_again;
        self.other_commands += other.other_commands;
        self.full += other.full;
        self.lost_by_chain += other.lost_by_chain;
        self.lost_by_ends += other.lost_by_ends;
        self.observers += other.observers;
        self.generations += other.generations;
        self.void += other.void;
        self.other_files += other.other_files;
        self.files_denied += other.files_denied;
        self.seals_by_others += other.seals_by_others;
        self.not_taken += other.not_taken;
        self.answered_of_the_last += other.answered_of_the_last;
    }
}

#[test]
fn each_schedule_is_right() {
    if let Some(seed) = number_of("SIMULATION_SEED") {
        println!("{:#?}", play(seed, true).0);
        return;
    }
    let count = number_of("SIMULATION_SCHEDULES").unwrap_or(SCHEDULES);
    let first = number_of("SIMULATION_FIRST").unwrap_or(0);
    let mut all = Figures::default();
    let mut histories = Vec::new();
    for seed in first..first + count {
        let played = catch_unwind(AssertUnwindSafe(|| play(seed, false)));
        let Ok((figures, played)) = played else {
            panic!("schedule {seed} is wrong: SIMULATION_SEED={seed} tells its steps");
        };
        all.add(figures);
        if (seed - first).is_multiple_of((count / PLAYED).max(1)) {
            histories.extend(played);
        }
    }
    println!("{count} schedules from {first} on: {all:?}");
    judge::check(&histories);
}
