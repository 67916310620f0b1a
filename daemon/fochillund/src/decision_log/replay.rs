//! Whether a decision log is right: the history is applied again by the library, and each decision is asked again where it was made.
use super::{Line, View, TRY};
use crate::answer::Answer;
use crate::node::Stamp;
use crate::policy::Policy;
use crate::policy_questions::{Asked, Names, Reason};
use fochillun::OpenError;
use serde::Deserialize;
use serde_json::value::RawValue;
use serde_json::{json, Value};
use thiserror::Error;

/// Why a log can't be looked at.
#[derive(Debug, Error)]
pub enum ReplayFault {
    /// The founding founds no policy.
    #[error("the founding: {0}")]
    Founding(OpenError),
    /// A line of the dump is no command, or is not answered Done.
    #[error("line {0} of the dump is not carried out")]
    Dump(usize),
    /// A line of the history is no record, or has another answer than the library gives.
    #[error("line {0} of the history is no record, or has another answer")]
    Record(usize),
    /// The history's stamps do not rise.
    #[error("line {0} of the history has a stamp that is not above the one before")]
    Order(usize),
}

/// What came of looking at a log.
#[derive(Clone, Debug, Default, PartialEq, Eq)]
pub struct Replayed {
    /// How many lines are right.
    pub right: usize,
    /// How many are of other generations, of a place that the history does not have, or of what was tried.
    pub elsewhere: usize,
    /// What is wrong, with the number of its line.
    pub wrong: Vec<(usize, String)>,
}

/// A record of the history.
#[derive(Deserialize)]
struct Record {
    stamp: Stamp,
    command: Box<RawValue>,
    answer: Box<RawValue>,
}

/// A line of a dump.
#[derive(Deserialize)]
struct DumpLine {
    command: Box<RawValue>,
}

/// Looks at a log by a generation's founding file, the dump that its history begins behind (client lines; nothing, where the history is whole), and
/// the history's records, a line each, or as `/v1/history` streams them.
///
/// # Errors
/// Where the founding, the dump or the history are not what they have to be.
pub fn replay(
    founding: &[u8],
    generation: u64,
    dump: &str,
    history: &str,
    log: &str,
) -> Result<Replayed, ReplayFault> {
    let mut policy = Replaying::of(founding, dump)?;
    let mut replayed = Replayed::default();
    let mut lines = Vec::new();
    for (number, text) in (1..).zip(log.lines()) {
        match serde_json::from_str::<Line>(text) {
            Ok(line) if line.consistency.is_none() => match policy.names_nothing(&line) {
                true => replayed.right += 1,
                false => replayed.is_wrong(number, "it asks what can be asked"),
            },
            // What is tried stands in no history.
            Ok(line) if line.generation != generation || line.route == TRY => {
                replayed.elsewhere += 1;
            }
            Ok(line) => lines.push((number, line)),
            Err(error) => replayed.is_wrong(number, &error.to_string()),
        }
    }
    lines.sort_by_key(|(_, line)| line.stamp);
    let mut lines = lines.into_iter().peekable();
    let mut last = None;
    for (at, text) in records_of(history) {
        let record: Record = serde_json::from_str(text).map_err(|_| ReplayFault::Record(at))?;
        if last >= Some(record.stamp) {
            return Err(ReplayFault::Order(at));
        }
        // What was decided between two records was decided by the one before.
        while let Some((number, line)) = lines.next_if(|(_, it)| it.stamp < Some(record.stamp)) {
            replayed.look(&mut policy, last, number, &line);
        }
        let answer = policy.policy.apply(record.command.get());
        if answer.ok().as_deref().and_then(value) != value(record.answer.get()) {
            return Err(ReplayFault::Record(at));
        }
        last = Some(record.stamp);
        while let Some((number, line)) = lines.next_if(|(_, it)| it.stamp == last) {
            match &line.command {
                Some(command) => replayed.look_at_command(&record, command, number, &line),
                None => replayed.look(&mut policy, last, number, &line),
            }
        }
    }
    replayed.elsewhere += lines.count();
    replayed.wrong.sort();
    Ok(replayed)
}

/// The lines of a history that are records, with their numbers, up to the end of its generation.
fn records_of(history: &str) -> impl Iterator<Item = (usize, &str)> {
    let lines = (1..).zip(history.lines());
    let lines = lines.take_while(|(_, line)| *line != "event: generation");
    let is_told = |line: &str| ["event:", "id:", ":"].iter().any(|it| line.starts_with(it));
    let records = lines.filter(move |(_, line)| !line.is_empty() && !is_told(line));
    records.map(|(number, line)| (number, line.strip_prefix("data: ").unwrap_or(line)))
}

impl Replayed {
    fn is_wrong(&mut self, number: usize, why: &str) {
        self.wrong.push((number, why.to_owned()));
    }

    /// Asks a line's question again, behind the record of this stamp.
    fn look(&mut self, policy: &mut Replaying, last: Option<Stamp>, number: usize, line: &Line) {
        if line.stamp != last {
            // Between two records nothing is shown.
            self.elsewhere += 1;
            return;
        }
        match policy.told(line) {
            Some((decision, answer)) if (decision, &answer) == (line.decision, &line.answer) => {
                self.right += 1;
            }
            Some((_, answer)) => self.is_wrong(number, &format!("the policy tells {answer}")),
            None => self.is_wrong(number, "it asks nothing"),
        }
    }

    fn look_at_command(&mut self, record: &Record, command: &RawValue, number: usize, line: &Line) {
        let is_it = value(record.command.get()) == value(command.get())
            && value(record.answer.get()).as_ref() == Some(&line.answer);
        match is_it && line.consistency == Some(View::Ordered) {
            true => self.right += 1,
            false => self.is_wrong(number, "the history has another command or answer there"),
        }
    }
}

/// A generation's policy, as it goes through its history.
struct Replaying {
    policy: Policy,
    names: Names,
}

impl Replaying {
    fn of(founding: &[u8], dump: &str) -> Result<Replaying, ReplayFault> {
        let mut policy = Policy::of(founding).map_err(ReplayFault::Founding)?;
        let lines = dump.lines().map(serde_json::from_str::<DumpLine>);
        let lines: Vec<_> = lines.collect();
        let commands = lines.iter().map(|line| match line {
            Ok(line) => line.command.get(),
            Err(_) => "",
        });
        let names = Names::new();
        policy.apply_dump(commands).map_err(ReplayFault::Dump)?;
        Ok(Replaying { policy, names })
    }

    /// What a line's question is told: the decision of an evaluation, and the answer.
    fn told(&mut self, line: &Line) -> Option<(Option<bool>, Value)> {
        if let Some(evaluation) = &line.evaluation {
            let asked = evaluation.asked(&self.names).ok()?;
            let decision = evaluation.decision(&self.answer(&asked)?);
            return Some((Some(decision.is_granted()), json!(decision.reason)));
        }
        let search = line.search.as_ref()?;
        let asked = search.asked(&self.names).ok()?;
        let answer = self.answer(&asked)?;
        Some((None, page_of(search.found(answer), &line.answer)))
    }

    fn answer(&mut self, asked: &Asked) -> Option<Answer> {
        let queries = asked.queries();
        let mut told = queries.iter().map(|query| self.policy.query(query));
        asked.answer(&mut told).ok()
    }

    /// Whether a line's question is one that no policy is asked.
    fn names_nothing(&self, line: &Line) -> bool {
        let names = &self.names;
        let told = match (&line.evaluation, &line.search) {
            (Some(evaluation), None) => {
                let refused = evaluation.asked(names).err();
                refused.map(|it| (Some(false), json!(it.reason)))
            }
            (None, Some(search)) => search.asked(names).err().map(|it| (None, json!(it))),
            _ => None,
        };
        told == Some((line.decision, line.answer.clone()))
    }
}

fn value(text: &str) -> Option<Value> {
    serde_json::from_str(text).ok()
}

/// What is found, as far as a page told it: names that stand together in what is found.
fn page_of(found: Result<Vec<String>, Reason>, told: &Value) -> Value {
    let found = match found {
        Ok(found) => found,
        Err(reason) => return json!(reason),
    };
    let page: Vec<String> = serde_json::from_value(told["names"].clone()).unwrap_or_default();
    let is_part = page.is_empty() || found.windows(page.len()).any(|some| some == page);
    match is_part {
        true => told.clone(),
        false => json!({ "names": found }),
    }
}
