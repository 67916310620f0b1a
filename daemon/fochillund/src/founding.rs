//! The founding file of a group over rows, and what else its first generation is founded with.
use crate::message::LAST_FOUNDING_CLOCK;
use rows::RowName;
use std::collections::BTreeSet;
use thiserror::Error;
use toml::value::Table;

/// The least `sent_limit` of a group over rows. A row that ends early ends its generation.
pub const LEAST_SENT_LIMIT: u64 = 16_384;

/// How many messages a member sends where the founding file does not say.
const SENT_LIMIT: u64 = 65_536;

/// The most members of a group.
pub const MOST_MEMBERS: usize = 8;

/// Why a process does not join, or a generation is not proposed.
#[derive(Clone, Debug, PartialEq, Eq, Error)]
pub enum FoundingFault {
    /// The founding file is none.
    #[error("the founding file: {0}")]
    File(String),
    /// It has another number of members than there are nodes.
    #[error("the founding file has {members} members, and there are {nodes} nodes")]
    Members {
        /// How many the file has.
        members: i64,
        /// How many nodes were named.
        nodes: usize,
    },
    /// A row would end too soon.
    #[error("the founding file has the sent_limit {0}; a group over rows wants {LEAST_SENT_LIMIT} or more")]
    SentLimit(u64),
    /// Clocks would reach that of a seal.
    #[error("the founding file has the clock {0}; a group over rows wants {LAST_FOUNDING_CLOCK} or less")]
    Clock(u64),
    /// A node's name is none, or stands twice; or there are too few or too many.
    #[error("the nodes: {0}")]
    Nodes(String),
    /// The group was founded with something else.
    #[error("this group was founded with {0}")]
    Differs(&'static str),
}

/// What the first generation of a group is founded with.
#[derive(Clone, Debug, PartialEq, Eq)]
pub struct NewGroup {
    /// The text of the founding file.
    pub file: String,
    /// The nodes of members 1, 2 and so on.
    pub nodes: Vec<String>,
}

/// Reads a founding file for nodes.
///
/// # Errors
/// Why no group over rows is founded so.
pub fn new_group(file: &str, nodes: &[String]) -> Result<NewGroup, FoundingFault> {
    let table: Table = parse(file)?;
    let members = table.get("members").and_then(toml::Value::as_integer);
    let members = members.unwrap_or_default();
    if members != nodes.len() as i64 {
        let nodes = nodes.len();
        return Err(FoundingFault::Members { members, nodes });
    }
    check_file(&table)?;
    check_nodes(nodes)?;
    Ok(NewGroup {
        file: file.to_owned(),
        nodes: nodes.to_owned(),
    })
}

/// Reads a founding file as TOML. What else it has to be the library says.
///
/// # Errors
/// Where it is none.
pub fn parse(file: &str) -> Result<Table, FoundingFault> {
    toml::from_str(file).map_err(|error| FoundingFault::File(error.to_string()))
}

fn number(table: &Table, key: &str) -> Option<u64> {
    let number = table.get(key).and_then(toml::Value::as_integer)?;
    u64::try_from(number).ok()
}

/// Whether generations over rows have room for what a founding file says.
///
/// # Errors
/// Where they have not.
pub fn check_file(table: &Table) -> Result<(), FoundingFault> {
    let sent_limit = number(table, "sent_limit").unwrap_or(SENT_LIMIT);
    if sent_limit < LEAST_SENT_LIMIT {
        return Err(FoundingFault::SentLimit(sent_limit));
    }
    match number(table, "clock") {
        Some(clock) if clock > LAST_FOUNDING_CLOCK => Err(FoundingFault::Clock(clock)),
        _ => Ok(()),
    }
}

/// Whether members can live at these nodes.
///
/// # Errors
/// Where they can't.
pub fn check_nodes(nodes: &[String]) -> Result<(), FoundingFault> {
    if !(1..=MOST_MEMBERS).contains(&nodes.len()) {
        let why = format!("a group has 1 to {MOST_MEMBERS} members");
        return Err(FoundingFault::Nodes(why));
    }
    let mut seen = BTreeSet::new();
    for node in nodes {
        let row = RowName::of_node(node, 1);
        let row = row.map_err(|error| FoundingFault::Nodes(format!("{node:?}: {error}")))?;
        if !seen.insert(row) {
            return Err(FoundingFault::Nodes(format!("{node} stands twice")));
        }
    }
    Ok(())
}

/// How many messages a member sends at most by a founding file.
pub(crate) fn sent_limit_of(file: &str) -> u64 {
    let table = parse(file).ok();
    let limit = table.and_then(|table| number(&table, "sent_limit"));
    limit.unwrap_or(SENT_LIMIT)
}

/// A founding file as it is, but for the number of members. What is none stays as it is.
pub fn with_members(file: &str, members: usize) -> String {
    let Ok(mut table) = parse(file) else {
        return file.to_owned();
    };
    if number(&table, "members") == Some(members as u64) {
        return file.to_owned();
    }
    table.insert("members".to_owned(), (members as i64).into());
    toml::to_string(&table).unwrap_or_else(|_| file.to_owned())
}

#[cfg(test)]
mod tests {
    use super::{new_group, with_members, FoundingFault};
    use crate::message::LAST_FOUNDING_CLOCK;

    fn nodes(names: &[&str]) -> Vec<String> {
        names.iter().map(|&name| name.to_owned()).collect()
    }

    fn refused(file: &str, names: &[&str]) -> FoundingFault {
        new_group(file, &nodes(names)).unwrap_err()
    }

    #[test]
    fn a_founding_is_for_as_many_nodes_as_it_has_members() {
        assert!(new_group("members = 2", &nodes(&["a", "b"])).is_ok());
        let (members, nodes) = (2, 1);
        assert_eq!(
            refused("members = 2", &["a"]),
            FoundingFault::Members { members, nodes }
        );
        assert!(matches!(refused("members", &["a"]), FoundingFault::File(_)));
    }

    #[test]
    fn a_row_that_would_end_early_is_refused() {
        let limited = |limit: u64| format!("members = 1\nsent_limit = {limit}");
        assert_eq!(
            refused(&limited(16_383), &["a"]),
            FoundingFault::SentLimit(16_383)
        );
        assert!(new_group(&limited(16_384), &nodes(&["a"])).is_ok());
    }

    #[test]
    fn a_clock_near_that_of_a_seal_is_refused() {
        let begins = |clock: u64| format!("members = 1\nclock = {clock}");
        let late = LAST_FOUNDING_CLOCK + 1;
        assert_eq!(refused(&begins(late), &["a"]), FoundingFault::Clock(late));
        assert!(new_group(&begins(late - 1), &nodes(&["a"])).is_ok());
    }

    #[test]
    fn nodes_have_names_of_their_own() {
        for names in [["a", "a"], ["a", "b/c"], ["", "a"]] {
            assert!(matches!(
                refused("members = 2", &names),
                FoundingFault::Nodes(_)
            ));
        }
    }

    #[test]
    fn a_founding_file_is_as_it_is_but_for_the_members() {
        let file = "version = 1\nmembers = 2 # two\n";
        assert_eq!(with_members(file, 2), file);
        let more = with_members(file, 3);
        assert_eq!(with_members(&more, 3), more);
        assert!(more.contains("members = 3") && more.contains("version = 1"));
        assert_eq!(with_members("members", 3), "members");
    }
}
