//! Runs that end in each way, and words in each form.

use super::builder::Builder;
use crate::case::{Case, SCHEDULE_PATH};
use crate::tree;

pub fn cases() -> Vec<Case> {
    let words: [&[&str]; 12] = [
        &[],
        &["play", "-", "-"],
        &["play", "-", SCHEDULE_PATH],
        &["play", "missing.toml", "-"],
        &["play", "missing.toml", "missing.jsonl"],
        &["play", "-", "missing.jsonl"],
        &["play", ".", "-"],
        &["play", "-", "."],
        &["play", SCHEDULE_PATH, "missing.jsonl"],
        &["play", "-"],
        &["play", "-", "-", "-"],
        &["plays", "-", "-"],
    ];
    let named = |(number, words): (usize, &&[&str])| Case {
        name: format!("end-{number:02}"),
        words: words.iter().map(|word| word.to_string()).collect(),
        founding: None,
        schedule: short_schedule(),
        is_group: false,
    };
    words.iter().enumerate().map(named).collect()
}

fn short_schedule() -> Vec<u8> {
    let mut builder = Builder::new();
    builder.command("AddUser", &[("user", tree::text("ann"))]);
    builder.command("AddUser", &[("user", tree::text("ann"))]);
    builder.deliver();
    builder.schedule
}
