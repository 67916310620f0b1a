//! The cases: some that are always there, and random schedules up to a number of lines.

mod builder;
mod cutting;
mod day;
mod ends;
mod foundings;
mod group;
mod hostile;
mod limits;
mod model;

use crate::case::Case;
use crate::random::Random;
use crate::rows::{Group, ROWS, Row};

pub struct Choices {
    pub seed: u64,
    /// Lines of random schedules, at least. Those that are always there come on top.
    pub lines: usize,
    pub reviews: bool,
    pub extent: Extent,
    pub members: Members,
}

/// Of which schedules there are some.
#[derive(Clone, Copy, PartialEq, Eq)]
pub enum Members {
    One,
    OneAndGroups,
    Groups,
}

#[derive(Clone, Copy, PartialEq, Eq)]
pub enum Extent {
    Whole,
    /// For a program that is slow to start and slow to run: fewer foundings and inputs.
    Short,
}

impl Choices {
    /// The commands that the schedules have.
    pub fn rows(&self) -> Vec<&'static Row> {
        ROWS.iter().filter(|row| self.reviews || row.group != Group::Review).collect()
    }
}

/// The cases that are there whatever the random choices of a day are.
pub fn fixed_cases(choices: &Choices) -> Vec<Case> {
    if choices.members == Members::Groups {
        return Vec::new();
    }
    let mut random = Random::new(choices.seed);
    let mut cases = ends::cases();
    cases.extend(cutting::cases(&mut random, choices.extent));
    cases.extend(limits::cases(&mut random));
    cases.extend(foundings::cases(&mut random, choices.extent));
    let (count, length) = if choices.extent == Extent::Whole { (10, 10_000) } else { (2, 4_000) };
    let rows = choices.rows();
    cases.extend((0..count).map(|number| day::bad_case(&mut random, &rows, length, number)));
    cases
}

/// The schedules whose policies are told: those at the limits, and random ones of one member.
pub fn policy_cases(choices: &Choices, with_limits: bool) -> Vec<Case> {
    let at_limits = match choices.extent {
        Extent::Whole if with_limits => limits::cases(&mut Random::new(choices.seed)),
        _ => Vec::new(),
    };
    at_limits.into_iter().chain(random_cases(choices, false, choices.lines)).collect()
}

/// Random schedules with this many lines or more: days of one member, or schedules of groups.
pub fn random_cases(choices: &Choices, is_group: bool, lines: usize) -> Vec<Case> {
    let mut random = Random::new(if is_group { !choices.seed ^ 1 << 63 } else { !choices.seed });
    let rows = choices.rows();
    let mut cases: Vec<Case> = Vec::new();
    let mut made = 0;
    while made < lines {
        let case = if is_group {
            group::case(&mut random, &rows, choices.extent, cases.len())
        } else {
            day::case(&mut random, &rows, cases.len())
        };
        made += case.lines().len();
        cases.push(case);
    }
    cases
}
