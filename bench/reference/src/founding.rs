//! The founding file: the group and the vocabulary.

use crate::limits;
use crate::name::Name;
use crate::policy::HierarchyKind;
use crate::toml::{self, Entries, Value};
use crate::vocabulary::Vocabulary;
use std::collections::HashSet;

#[derive(Debug)]
pub struct Founding {
    pub members: u32,
    pub clock: u64,
    pub sent_limit: u32,
    pub vocabulary: Vocabulary,
    pub hierarchy: HierarchyKind,
}

/// In the order in which the checks are made, each over the whole file.
#[derive(Clone, Copy, Debug, PartialEq, Eq)]
pub enum FoundingRefusal {
    TooLong,
    NotToml,
    BadVersion,
    UnknownKey,
    MissingKey,
    WrongKind,
    OutOfRange,
    BadName,
    Repeated,
    UnknownName,
}

use FoundingRefusal::*;

const NEEDED: [&str; 5] = ["version", "members", "operations", "objects", "permissions"];
const OPTIONAL: [&str; 2] = ["clock", "sent_limit"];
/// The key that a file of version 2 has besides, and needs. To one of version 1 it is unknown.
const HIERARCHY: &str = "hierarchy";

const GENERAL: &str = "general";
const LIMITED: &str = "limited";

/// The founding that is played where no file is named.
pub const SAMPLE: &str = r#"version = 1
members = 1
operations = ["approve", "pay", "read"]
objects = ["invoice", "ledger"]
permissions = [["approve", "invoice"], ["pay", "invoice"], ["read", "ledger"]]
"#;

pub fn read_founding(bytes: &[u8]) -> Result<Founding, FoundingRefusal> {
    require(bytes.len() <= limits::FOUNDING_BYTES, TooLong)?;
    let entries = toml::read(bytes).map_err(|_| NotToml)?;
    let needed = needed_keys(entry(&entries, "version")).ok_or(BadVersion)?;
    let is_known = |key: &str| needed.contains(&key) || OPTIONAL.contains(&key);
    require(entries.iter().all(|(key, _)| is_known(key)), UnknownKey)?;
    require(needed.iter().all(|key| entry(&entries, key).is_some()), MissingKey)?;
    Texts::of(&entries)?.founding()
}

/// The keys that a file of this version needs, or none where there is no such version.
fn needed_keys(version: Option<&Value>) -> Option<Vec<&'static str>> {
    match version? {
        Value::Whole(1) => Some(NEEDED.to_vec()),
        Value::Whole(2) => Some([&NEEDED[..], &[HIERARCHY]].concat()),
        _ => None,
    }
}

fn require(holds: bool, refusal: FoundingRefusal) -> Result<(), FoundingRefusal> {
    if holds { Ok(()) } else { Err(refusal) }
}

fn entry<'a>(entries: &'a Entries, key: &str) -> Option<&'a Value> {
    entries.iter().find(|(other, _)| other == key).map(|(_, value)| value)
}

/// The values of a file in which each has the right kind.
struct Texts<'a> {
    members: i64,
    clock: i64,
    sent_limit: i64,
    hierarchy: &'a str,
    operations: Vec<&'a str>,
    objects: Vec<&'a str>,
    permissions: Vec<(&'a str, &'a str)>,
}

impl<'a> Texts<'a> {
    fn of(entries: &'a Entries) -> Result<Texts<'a>, FoundingRefusal> {
        let number = |key, otherwise: i64| entry(entries, key).map_or(Ok(otherwise), whole);
        let items = |key| entry(entries, key).map_or(Err(MissingKey), list);
        Ok(Texts {
            members: number("members", 0)?,
            clock: number("clock", 0)?,
            sent_limit: number("sent_limit", limits::SENT.into())?,
            // A file of version 1 has no such key, and its hierarchy is general.
            hierarchy: entry(entries, HIERARCHY).map_or(Ok(GENERAL), text)?,
            operations: items("operations")?.iter().map(text).collect::<Result<_, _>>()?,
            objects: items("objects")?.iter().map(text).collect::<Result<_, _>>()?,
            permissions: items("permissions")?.iter().map(pair).collect::<Result<_, _>>()?,
        })
    }

    fn founding(&self) -> Result<Founding, FoundingRefusal> {
        let members = u32::try_from(self.members).map_err(|_| OutOfRange)?;
        require((1..=limits::MEMBERS).contains(&members), OutOfRange)?;
        let clock = u64::try_from(self.clock).map_err(|_| OutOfRange)?;
        require(clock <= limits::CLOCK, OutOfRange)?;
        let sent_limit = u32::try_from(self.sent_limit).map_err(|_| OutOfRange)?;
        require((1..=limits::SENT).contains(&sent_limit), OutOfRange)?;
        let hierarchy = hierarchy_kind(self.hierarchy).ok_or(OutOfRange)?;
        require(self.operations.len() <= limits::OPERATIONS, OutOfRange)?;
        require(self.objects.len() <= limits::OBJECTS, OutOfRange)?;
        require(self.permissions.len() <= limits::PERMISSIONS, OutOfRange)?;
        Ok(Founding { members, clock, sent_limit, vocabulary: self.vocabulary()?, hierarchy })
    }

    fn vocabulary(&self) -> Result<Vocabulary, FoundingRefusal> {
        let operations = names(&self.operations)?;
        let objects = names(&self.objects)?;
        let name_pair = |(operation, object): &(&str, &str)| Some((Name::read(operation)?, Name::read(object)?));
        let pairs: Vec<(Name, Name)> = self.permissions.iter().map(name_pair).collect::<Option<_>>().ok_or(BadName)?;
        let operation_set: HashSet<&Name> = operations.iter().collect();
        let object_set: HashSet<&Name> = objects.iter().collect();
        let pair_set: HashSet<&(Name, Name)> = pairs.iter().collect();
        let nothing_twice = operation_set.len() == operations.len()
            && object_set.len() == objects.len()
            && pair_set.len() == pairs.len();
        require(nothing_twice, Repeated)?;
        let is_listed =
            |(operation, object): &(Name, Name)| operation_set.contains(operation) && object_set.contains(object);
        require(pairs.iter().all(is_listed), UnknownName)?;
        Ok(Vocabulary::new(operations, objects, pairs))
    }
}

fn hierarchy_kind(text: &str) -> Option<HierarchyKind> {
    match text {
        GENERAL => Some(HierarchyKind::General),
        LIMITED => Some(HierarchyKind::Limited),
        _ => None,
    }
}

fn names(texts: &[&str]) -> Result<Vec<Name>, FoundingRefusal> {
    texts.iter().map(|text| Name::read(text).ok_or(BadName)).collect()
}

fn whole(value: &Value) -> Result<i64, FoundingRefusal> {
    match value {
        Value::Whole(number) => Ok(*number),
        _ => Err(WrongKind),
    }
}

fn text(value: &Value) -> Result<&str, FoundingRefusal> {
    match value {
        Value::Text(text) => Ok(text),
        _ => Err(WrongKind),
    }
}

fn list(value: &Value) -> Result<&[Value], FoundingRefusal> {
    match value {
        Value::List(items) => Ok(items),
        _ => Err(WrongKind),
    }
}

/// An array of exactly two texts.
fn pair(value: &Value) -> Result<(&str, &str), FoundingRefusal> {
    match list(value)? {
        [operation, object] => Ok((text(operation)?, text(object)?)),
        _ => Err(WrongKind),
    }
}

#[cfg(test)]
mod tests;
