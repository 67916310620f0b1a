//! What is asked of a policy that was told: each review and each check of what is there.

use crate::calls::{HEAD, MOST_COMMANDS, SAMPLE, ends_early, unescaped};
use crate::case::{Case, lines_of};
use crate::dumps::{MARK, parts_of, with_lines};
use crate::players::Player;
use crate::random::Random;
use crate::rows::{ROWS, Row};
use crate::serving;
use crate::text::contains;
use std::collections::{BTreeMap, BTreeSet};

/// The reviews by which it is found out what is there: each name that occurs is asked for as each kind.
const PROBES: [&str; 5] =
    ["AssignedRoles", "AssignedUsers", "SessionRoles", "SsdRoleSetCardinality", "DsdRoleSetCardinality"];

/// How many of the names that occur are asked for by these, spread over their order.
const MOST_NAMES: usize = 1_000;

/// How many of a kind that are there are asked for by each other command, spread over their order.
const MOST_OF_A_KIND: usize = 40;

/// How many policies of a random schedule are told. Of one at a limit it is the last one.
const CUTS: usize = 4;

/// How many lines of the schedule are asked behind the questions: they also change what no review tells.
const MOST_BEHIND: usize = 300;

/// The names of each kind. A set is of the kind that its commands begin with.
type Kinds = BTreeMap<&'static str, Vec<String>>;

/// The conversations of these schedules, each cut at some places, with the mark there. Behind it stand each review and each check of
/// what is there, as the reference has it, and then the next lines of the conversation.
pub fn cases_of(direct: &dyn Player, cases: &[Case], random: &mut Random) -> Result<Vec<Case>, String> {
    let played: Vec<Case> = cases.iter().filter(|case| !case.is_group && !ends_early(case)).cloned().collect();
    let talks = serving::cases_of(&played);
    let cut: Vec<Case> = talks.iter().flat_map(|case| cuts(random, case)).collect();
    let probing: Vec<Case> = cut.iter().map(probing).collect();
    let told = direct.play(&probing)?;
    let found = probing.iter().zip(&told).map(|(case, told)| found(&parts_of(case).1, &lines_of(&told.output)));
    Ok(cut.iter().zip(&probing).zip(found).map(|((case, probing), found)| asking(case, probing, found)).collect())
}

fn cuts(random: &mut Random, case: &Case) -> Vec<Case> {
    let lines = case.lines();
    let cuts = if case.name.starts_with("day") { CUTS } else { 1 };
    let mut places: BTreeSet<usize> = (1..cuts).map(|_| random.between(lines.len() / 8, lines.len())).collect();
    places.insert(lines.len());
    let cut = |(number, place): (usize, usize)| {
        let end = lines.len().min(place + MOST_BEHIND);
        let marked = [&lines[..place], &[MARK], &lines[place..end]].concat();
        with_lines(case, &marked).renamed(format!("{}-{number}", case.name))
    };
    places.into_iter().enumerate().map(cut).collect()
}

/// The case with its names asked for behind the mark, as each kind.
fn probing(case: &Case) -> Case {
    let (made, _) = parts_of(case);
    let names = spread(names_in(&made), MOST_NAMES);
    let all: Kinds = probes().map(|row| (kind_of(row, row.fields[0]), names.clone())).collect();
    let lines: Vec<Vec<u8>> = probes().flat_map(|row| lines_of_row(row, &all)).collect();
    with_lines(case, &[made, vec![MARK], lines.iter().map(Vec::as_slice).collect()].concat())
}

fn probes() -> impl Iterator<Item = &'static Row> {
    ROWS.iter().filter(|row| PROBES.contains(&row.name))
}

/// What is there: what a probe was not denied.
fn found(probed: &[&[u8]], answers: &[&[u8]]) -> Kinds {
    let is_there = |answer: &[u8]| answer.starts_with(b"{\"answer\":") && !contains(answer, b"\"denied\"");
    let there = probed.iter().zip(answers).filter(|(_, answer)| is_there(answer)).map(|(line, _)| *line);
    let there: Vec<&[u8]> = there.collect();
    let of_row = |row: &'static Row| {
        let name = format!("\"{}\"", row.name).into_bytes();
        let lines: Vec<&[u8]> = there.iter().copied().filter(|line| contains(line, &name)).collect();
        let names = names_in(&lines).into_iter().filter(|name| name != row.name);
        (kind_of(row, row.fields[0]), spread(names.collect(), MOST_OF_A_KIND))
    };
    probes().map(of_row).collect()
}

/// The case with the questions behind the mark, and what stood there.
fn asking(case: &Case, probing: &Case, mut kinds: Kinds) -> Case {
    let (made, rest) = parts_of(case);
    for key in ["operation", "object"] {
        kinds.insert(key, spread(names_of_founding(case, key), MOST_OF_A_KIND));
    }
    let is_asked = |row: &&Row| row.is_question() && !PROBES.contains(&row.name);
    let asked: Vec<Vec<u8>> = ROWS.iter().filter(is_asked).flat_map(|row| lines_of_row(row, &kinds)).collect();
    let probed = parts_of(probing).1;
    let behind = probed.into_iter().chain(asked.iter().map(Vec::as_slice)).chain(rest);
    // A dump has at most two commands for each one that was asked: an ascendant and its pair.
    let behind: Vec<&[u8]> = behind.take(MOST_COMMANDS.saturating_sub(2 * made.len())).collect();
    with_lines(case, &[made, vec![MARK], behind].concat())
}

fn kind_of(row: &Row, field: &'static str) -> &'static str {
    match field {
        "set" if row.name.starts_with("Ssd") => "Ssd",
        "set" => "Dsd",
        _ => field,
    }
}

/// The command with each choice of names.
fn lines_of_row(row: &Row, kinds: &Kinds) -> Vec<Vec<u8>> {
    let mut fields = vec![String::new()];
    for field in row.fields {
        let names = kinds.get(kind_of(row, field)).map(Vec::as_slice).unwrap_or_default();
        let longer =
            fields.iter().flat_map(|fields| names.iter().map(move |name| format!("{fields},\"{field}\":\"{name}\"")));
        fields = longer.collect();
    }
    fields.iter().map(|fields| format!("{HEAD}{{\"name\":\"{}\"{fields}}}}}", row.name).into_bytes()).collect()
}

/// At most so many, evenly spread.
fn spread(names: BTreeSet<String>, most: usize) -> Vec<String> {
    let step = names.len().div_ceil(most).max(1);
    names.into_iter().step_by(step).collect()
}

/// The names that the lines have as values.
fn names_in(lines: &[&[u8]]) -> BTreeSet<String> {
    let texts = lines.iter().filter_map(|line| str::from_utf8(line).ok());
    texts.flat_map(values_of).filter(|value| is_name(value)).collect()
}

/// The texts of a line that are no keys.
fn values_of(line: &str) -> Vec<String> {
    let parts: Vec<&str> = line.split('"').collect();
    let texts = parts.windows(2).skip(1).step_by(2).filter(|pair| !pair[1].trim_start().starts_with(':'));
    texts.filter_map(|pair| unescaped(pair[0])).collect()
}

fn is_name(text: &str) -> bool {
    (1..=64).contains(&text.len()) && text.bytes().all(|byte| byte.is_ascii_alphanumeric() || b"_-.".contains(&byte))
}

/// The operations or the objects of a founding file that is written in the plain way, or of the sample.
fn names_of_founding(case: &Case, key: &str) -> BTreeSet<String> {
    let founding = case.founding.as_deref().unwrap_or(SAMPLE.as_bytes());
    let key = format!("{key}s = ").into_bytes();
    let lines: Vec<&[u8]> = lines_of(founding).into_iter().filter(|line| line.starts_with(&key)).collect();
    names_in(&lines)
}

#[cfg(test)]
mod tests {
    use super::*;

    #[test]
    fn the_names_of_lines() {
        let lines: [&[u8]; 3] = [
            br#"{"at":1,"command":{"name":"CreateSession","user":"a\u006e","session" : "s","roles":["r","not this"]}}"#,
            b"operations = [\"o\", \"p\"]",
            b"\xff\"q\"",
        ];
        assert_eq!(names_in(&lines).into_iter().collect::<Vec<_>>().join(" "), "CreateSession an o p r s");
    }

    #[test]
    fn each_choice_of_names() {
        let names = |names: &[&str]| names.iter().map(|name| name.to_string()).collect::<Vec<_>>();
        let kinds: Kinds = [("role", names(&["r", "s"])), ("object", names(&["x", "y"]))].into();
        let row = ROWS.iter().find(|row| row.name == "RoleOperationsOnObject").expect("the row");
        let lines = lines_of_row(row, &kinds);
        assert_eq!(lines.len(), 4);
        assert_eq!(lines[1], br#"{"at":1,"command":{"name":"RoleOperationsOnObject","role":"r","object":"y"}}"#);
        assert_eq!(spread((0..10).map(|number| number.to_string()).collect(), 4).join(""), "0369");
    }
}
