//! Things that have a name and a number: users, roles and sessions.

use crate::name::Name;
use std::collections::HashMap;

/// Entries with names that differ. A number is given to another entry only after its own was removed.
#[derive(Debug)]
pub struct Table<T> {
    numbers: HashMap<Name, usize>,
    entries: Vec<Option<Entry<T>>>,
    free: Vec<usize>,
}

#[derive(Debug)]
pub struct Entry<T> {
    pub name: Name,
    pub value: T,
}

impl<T> Table<T> {
    pub fn new() -> Table<T> {
        Table { numbers: HashMap::new(), entries: Vec::new(), free: Vec::new() }
    }

    pub fn number(&self, name: &Name) -> Option<usize> {
        self.numbers.get(name).copied()
    }

    pub fn len(&self) -> usize {
        self.numbers.len()
    }

    /// Adds an entry under a name that the table does not have, and gives its number.
    pub fn add(&mut self, name: Name, value: T) -> usize {
        let entry = Some(Entry { name: name.clone(), value });
        let number = match self.free.pop() {
            Some(number) => {
                self.entries[number] = entry;
                number
            }
            None => {
                self.entries.push(entry);
                self.entries.len() - 1
            }
        };
        self.numbers.insert(name, number);
        number
    }

    pub fn remove(&mut self, number: usize) {
        if let Some(entry) = self.entries[number].take() {
            self.numbers.remove(&entry.name);
            self.free.push(number);
        }
    }

    /// The entry of a number that the table gave and did not take back.
    fn entry(&self, number: usize) -> &Entry<T> {
        self.entries[number].as_ref().expect("a number in use")
    }

    pub fn name(&self, number: usize) -> &Name {
        &self.entry(number).name
    }

    pub fn get(&self, number: usize) -> &T {
        &self.entry(number).value
    }

    pub fn get_mut(&mut self, number: usize) -> &mut T {
        &mut self.entries[number].as_mut().expect("a number in use").value
    }

    pub fn iter(&self) -> impl Iterator<Item = (usize, &Entry<T>)> {
        self.entries.iter().enumerate().filter_map(|(number, entry)| Some((number, entry.as_ref()?)))
    }

    pub fn values(&self) -> impl Iterator<Item = &T> {
        self.entries.iter().flatten().map(|entry| &entry.value)
    }

    pub fn values_mut(&mut self) -> impl Iterator<Item = &mut T> {
        self.entries.iter_mut().flatten().map(|entry| &mut entry.value)
    }

    /// Removes the entries whose value fails the test.
    pub fn retain(&mut self, mut keeps: impl FnMut(&T) -> bool) {
        for number in 0..self.entries.len() {
            if self.entries[number].as_ref().is_some_and(|entry| !keeps(&entry.value)) {
                self.remove(number);
            }
        }
    }
}
