//! Sets of small numbers, kept as bits.

/// A set of numbers. It takes one bit for each number up to the greatest one that it ever had.
#[derive(Clone, Debug, Default)]
pub struct NumberSet {
    words: Vec<u64>,
}

const BITS: usize = u64::BITS as usize;

impl NumberSet {
    pub fn contains(&self, number: usize) -> bool {
        self.words.get(number / BITS).is_some_and(|word| word & bit(number) != 0)
    }

    /// Adds a number, and tells whether it is new.
    pub fn insert(&mut self, number: usize) -> bool {
        let place = number / BITS;
        if self.words.len() <= place {
            self.words.resize(place + 1, 0);
        }
        let is_new = self.words[place] & bit(number) == 0;
        self.words[place] |= bit(number);
        is_new
    }

    /// Takes a number out, and tells whether it was there.
    pub fn remove(&mut self, number: usize) -> bool {
        let was_there = self.contains(number);
        if was_there {
            self.words[number / BITS] &= !bit(number);
        }
        was_there
    }

    pub fn insert_all(&mut self, other: &NumberSet) {
        if self.words.len() < other.words.len() {
            self.words.resize(other.words.len(), 0);
        }
        for (word, added) in self.words.iter_mut().zip(&other.words) {
            *word |= added;
        }
    }

    pub fn is_empty(&self) -> bool {
        self.words.iter().all(|word| *word == 0)
    }

    pub fn len(&self) -> usize {
        self.words.iter().map(|word| word.count_ones() as usize).sum()
    }

    /// How many numbers are in both sets.
    pub fn count_shared(&self, other: &NumberSet) -> usize {
        let shared = self.words.iter().zip(&other.words).map(|(one, two)| one & two);
        shared.map(|word| word.count_ones() as usize).sum()
    }

    pub fn contains_all(&self, other: &NumberSet) -> bool {
        self.count_shared(other) == other.len()
    }

    /// The numbers, the smallest first.
    pub fn iter(&self) -> impl Iterator<Item = usize> {
        self.words.iter().enumerate().flat_map(|(place, word)| BitsOfWord { word: *word, first: place * BITS })
    }
}

impl FromIterator<usize> for NumberSet {
    fn from_iter<I: IntoIterator<Item = usize>>(numbers: I) -> NumberSet {
        let mut set = NumberSet::default();
        for number in numbers {
            set.insert(number);
        }
        set
    }
}

struct BitsOfWord {
    word: u64,
    first: usize,
}

impl Iterator for BitsOfWord {
    type Item = usize;

    fn next(&mut self) -> Option<usize> {
        if self.word == 0 {
            return None;
        }
        let lowest = self.word.trailing_zeros() as usize;
        self.word &= self.word - 1;
        Some(self.first + lowest)
    }
}

fn bit(number: usize) -> u64 {
    1 << (number % BITS)
}

#[cfg(test)]
mod tests {
    use super::*;

    #[test]
    fn it_is_a_set() {
        let mut set = NumberSet::default();
        assert!(set.insert(200) && set.insert(0) && set.insert(63) && set.insert(64));
        assert!(!set.insert(63));
        assert_eq!(set.iter().collect::<Vec<_>>(), [0, 63, 64, 200]);
        assert!(set.remove(63) && !set.remove(63) && !set.remove(5_000));
        assert!(!set.contains(63) && set.contains(64) && !set.contains(5_000));
        assert_eq!(set.len(), 3);
    }

    #[test]
    fn two_sets_share_what_is_in_both() {
        let one: NumberSet = [1, 2, 300].into_iter().collect();
        let two: NumberSet = [2, 3].into_iter().collect();
        assert_eq!((one.count_shared(&two), two.count_shared(&one)), (1, 1));
        assert!(!one.contains_all(&two) && !two.contains_all(&one));
        let mut both = two.clone();
        both.insert_all(&one);
        assert!(both.contains_all(&one) && both.contains_all(&two));
        assert_eq!(both.len(), 4);
    }
}
