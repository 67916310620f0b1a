//! The cells of a row, by the lines of its file.
//!
//! The first record whose number is next is those cells; each other record has lost. A line that tells of removed cells stands in the file
//! before the first of them is wiped out: so whatever was read where they stood, reading goes back there, once for each such line, to the record
//! that has the first cell that is left.
use super::record::{self, Line, Record, Trimmed};
use bytes::Bytes;

/// Where a cell's text lies in the file.
#[derive(Clone, Copy, Debug)]
pub(super) struct Place {
    pub(super) at: u64,
    pub(super) length: u32,
    /// The text's own sum: one that was wiped out has another.
    pub(super) sum: u32,
    /// The number of the first cell of its record, and where that one's line begins.
    record: (u64, u64),
}

/// A row, as far as the lines of its file were read.
#[derive(Debug, Default)]
pub(super) struct Cells {
    places: Vec<Place>,
    /// The texts of those that the last lines brought: who follows the row asks for just these.
    fresh: Vec<Bytes>,
    removed: u64,
    left_at: u64,
    read_to: u64,
    /// Where the last line ends from which reading went back.
    back_from: u64,
    has_met_a_hole: bool,
}

impl Cells {
    /// Where the next line begins: all before it was read, and can't be lost.
    pub(super) fn read_to(&self) -> u64 {
        self.read_to
    }

    /// The number of the next cell.
    pub(super) fn next(&self) -> u64 {
        self.removed + self.places.len() as u64 + 1
    }

    /// How many of the first cells are removed.
    pub(super) fn removed(&self) -> u64 {
        self.removed
    }

    /// Where the line begins that has the first cell that is left; 0 where none is removed.
    pub(super) fn left_at(&self) -> u64 {
        self.left_at
    }

    /// Whether a line was read, since this was asked last, that may be what is left of wiped ones.
    pub(super) fn take_hole(&mut self) -> bool {
        std::mem::take(&mut self.has_met_a_hole)
    }

    /// The places of the cells from a number on, of those that are left.
    pub(super) fn from(&self, number: u64) -> &[Place] {
        let before = number.saturating_sub(self.removed + 1);
        let from = usize::try_from(before).unwrap_or(usize::MAX);
        self.places.get(from..).unwrap_or(&[])
    }

    /// The texts of the cells from a number on, where the last lines brought just these.
    pub(super) fn fresh_from(&self, number: u64) -> Option<&[Bytes]> {
        let is_fresh = number + self.fresh.len() as u64 == self.next();
        (is_fresh && !self.fresh.is_empty()).then_some(&self.fresh)
    }

    /// What there is to tell where the cells before this one, which is there, are removed.
    pub(super) fn trimmed_to(&self, last: u64) -> Trimmed {
        let (first, at) = self.from(last)[0].record;
        Trimmed { last, first, at }
    }

    /// Takes lines that follow those before, and tells whether reading goes on behind them; else it goes on where `read_to` says.
    pub(super) fn take_lines(&mut self, lines: &[u8]) -> bool {
        self.fresh.clear();
        let mut rest = lines;
        while let Some(end) = memchr::memchr(b'\n', rest) {
            if !self.take_line(&rest[..end]) {
                return false;
            }
            rest = &rest[end + 1..];
        }
        true
    }

    fn take_line(&mut self, line: &[u8]) -> bool {
        let begin = self.read_to;
        self.read_to += line.len() as u64 + 1;
        match record::read(line) {
            Some(Line::Cells(found)) => self.take_record(begin, line, found),
            Some(Line::Trimmed(trimmed)) => return self.take_trimmed(trimmed),
            None => self.has_met_a_hole |= line.contains(&0),
        }
        true
    }

    fn take_record(&mut self, begin: u64, line: &[u8], found: Record) {
        if found.first != self.next() {
            return;
        }
        for text in found.texts {
            self.fresh.push(Bytes::copy_from_slice(&line[text.clone()]));
            self.places.push(Place {
                at: begin + text.start as u64,
                length: text.len() as u32,
                sum: crc32fast::hash(&line[text]),
                record: (found.first, begin),
            });
        }
    }

    /// The cells before one are removed. Tells whether reading goes on behind this line.
    fn take_trimmed(&mut self, told: Trimmed) -> bool {
        if told.last <= self.removed + 1 {
            return true;
        }
        self.fresh.clear();
        if self.read_to > self.back_from {
            self.back_from = self.read_to;
            self.places.clear();
            (self.removed, self.left_at) = (told.first - 1, told.at);
            self.read_to = told.at;
            return false;
        }
        // Where its last cell is not there either, that was removed later: another such line follows.
        if told.last < self.next() {
            self.places.drain(..(told.last - 1 - self.removed) as usize);
            self.removed = told.last - 1;
        }
        true
    }
}
