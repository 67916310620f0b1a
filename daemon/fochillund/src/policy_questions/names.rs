//! What is a name.
use fochillun::{CheckError, Monitor};
use std::sync::{Mutex, PoisonError};

/// A policy of nothing, by which the library says whether texts are names.
#[derive(Debug)]
pub struct Names(Mutex<Monitor>);

const FOUNDING: &[u8] =
    b"version = 1\nmembers = 1\noperations = []\nobjects = []\npermissions = []\n";

impl Default for Names {
    fn default() -> Names {
        Names::new()
    }
}

impl Names {
    /// One that has asked nothing.
    pub fn new() -> Names {
        Names(Mutex::new(
            Monitor::open(FOUNDING).expect("it founds a policy"),
        ))
    }

    /// Whether each of these texts is a name.
    pub fn are_names<'t>(&self, texts: impl IntoIterator<Item = &'t str>) -> bool {
        let mut monitor = self.0.lock().unwrap_or_else(PoisonError::into_inner);
        let mut texts = texts.into_iter();
        // A check reads three names. One that is asked twice is the same.
        while let Some(first) = texts.next() {
            let second = texts.next().unwrap_or(first);
            let third = texts.next().unwrap_or(second);
            if monitor.check(first, second, third) == Err(CheckError::BadName) {
                return false;
            }
        }
        true
    }
}

#[cfg(test)]
mod tests {
    use super::Names;

    #[test]
    fn names_are_those_of_the_library() {
        let names = Names::new();
        assert!(names.are_names(["a", "A-z_0.9", &"n".repeat(64), "b"]));
        for bad in ["", "a b", "a/b", "\u{e4}", "a\0", &"n".repeat(65)] {
            for at in 0..4 {
                let mut texts = ["a"; 4];
                texts[at] = bad;
                assert!(!names.are_names(texts), "{texts:?}");
            }
        }
    }
}
