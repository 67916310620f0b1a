//! How often things befell groups, and what came of it.
use std::collections::BTreeMap;
use std::fmt::{Display, Formatter, Result};

/// Counts, each by its name.
#[derive(Debug, Default)]
pub struct Figures(BTreeMap<&'static str, usize>);

impl Figures {
    /// One more of these.
    pub fn count(&mut self, name: &'static str) {
        self.add(name, 1);
    }

    /// So many more of these.
    pub fn add(&mut self, name: &'static str, more: usize) {
        *self.0.entry(name).or_default() += more;
    }

    /// All of others.
    pub fn add_all(&mut self, more: Figures) {
        for (name, count) in more.0 {
            self.add(name, count);
        }
    }
}

/// A line for each.
impl Display for Figures {
    fn fmt(&self, out: &mut Formatter<'_>) -> Result {
        let mut all = self.0.iter();
        all.try_for_each(|(name, count)| writeln!(out, "{name}\t{count}"))
    }
}
