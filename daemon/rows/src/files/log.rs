//! One row as one file.
//!
//! The first record in the file whose number is next is those cells; each other record has lost, and is skipped, by every reader alike. So two
//! processes that set the same cell at one time need no lock: each appends, syncs, and reads which of them was first. Whoever removes cells
//! appends and syncs that, and only then wipes them out: so a process that read, or wrote, what is no more there finds out why.
use super::cells::{Cells, Place};
use super::disk::RowFile;
use super::record;
use crate::engine::{Fault, Told};
use crate::text::check_texts;
use bytes::Bytes;
use std::io;
use std::ops::Range;

const MOST_READ: u64 = 1 << 20;

/// What is read with no thread of its own: so much that was not read before, and so many cells.
const MOST_AT_ONCE: (u64, usize) = (1 << 18, 16);

/// A row, as far as its file was read.
pub(super) struct Log {
    file: Box<dyn RowFile>,
    cells: Cells,
    /// What broke it.
    broken: Option<Fault>,
}

fn broken(error: io::Error) -> Fault {
    Fault::Broken(error.to_string())
}

fn fault_of_write(error: io::Error) -> Fault {
    match has_no_room(&error) {
        true => Fault::Full,
        false => broken(error),
    }
}

fn has_no_room(error: &io::Error) -> bool {
    const EFBIG: i32 = nix::libc::EFBIG;
    const ENOSPC: i32 = nix::libc::ENOSPC;
    const EDQUOT: i32 = nix::libc::EDQUOT;
    matches!(error.raw_os_error(), Some(EFBIG | ENOSPC | EDQUOT))
}

impl Log {
    pub(super) fn of(file: Box<dyn RowFile>) -> Log {
        Log {
            file,
            cells: Cells::default(),
            broken: None,
        }
    }

    /// Sets cells from a number on.
    pub(super) fn set(&mut self, first: u64, texts: &[Bytes]) -> Result<Told, Fault> {
        check_texts(texts)?;
        self.unless_broken(|log| log.set_next(first, texts))
    }

    /// Removes the cells before a number.
    pub(super) fn trim(&mut self, last: u64) -> Result<(), Fault> {
        self.unless_broken(|log| {
            log.settle()?;
            if last >= log.cells.next() {
                return Err(Fault::Broken(format!("cell {last} is not there")));
            }
            if last > log.cells.removed() + 1 {
                log.append(&record::written_trimmed(log.cells.trimmed_to(last)))?;
                log.settle()?;
            }
            // The line feed before what is left stays: it ends what was wiped out.
            match log.cells.left_at().saturating_sub(1) {
                0 => Ok(()),
                end => log.file.wipe(end).map_err(fault_of_write),
            }
        })
    }

    /// The texts from a number on.
    pub(super) fn get(&mut self, first: u64) -> Result<Vec<Bytes>, Fault> {
        self.unless_broken(|log| {
            log.settle()?;
            if let Some(texts) = log.texts_from(first)? {
                return Ok(texts);
            }
            log.settle()?;
            let texts = log.texts_from(first)?;
            texts.ok_or_else(|| Fault::Broken("a cell's text is another".to_owned()))
        })
    }

    /// The same where it needs no wait for the disk: all that is in the file is kept, and little of it is asked for.
    pub(super) fn get_at_once(&mut self, first: u64) -> Option<Result<Vec<Bytes>, Fault>> {
        let (length, mark) = (self.file.length().ok()?, self.file.mark().ok()?);
        let is_read = length.saturating_sub(self.cells.read_to()) <= MOST_AT_ONCE.0;
        let is_last = first.saturating_add(MOST_AT_ONCE.1 as u64) > self.cells.next();
        if mark != length || !is_read || !is_last {
            return None;
        }
        let told = self.unless_broken(|log| {
            let is_whole = log.read_up_to(mark)?;
            is_whole.then(|| log.texts_from(first)).transpose()
        });
        told.map(Option::flatten).transpose()
    }

    /// The texts from a number on; none where one was wiped out since its line was read.
    fn texts_from(&self, first: u64) -> Result<Option<Vec<Bytes>>, Fault> {
        let removed = self.cells.removed();
        if (1..=removed).contains(&first.max(1)) {
            return Err(Fault::Trimmed(removed + 1));
        }
        if let Some(texts) = self.cells.fresh_from(first) {
            return Ok(Some(texts.to_vec()));
        }
        let places = self.cells.from(first).iter();
        places.map(|place| self.text(*place)).collect()
    }

    /// Once something broke, nothing is asked of the file again: a sync that failed may have dropped what it was to keep.
    fn unless_broken<T>(
        &mut self,
        ask: impl FnOnce(&mut Log) -> Result<T, Fault>,
    ) -> Result<T, Fault> {
        if let Some(fault) = &self.broken {
            return Err(fault.clone());
        }
        let told = ask(self);
        if let Err(fault @ Fault::Broken(_)) = &told {
            self.broken = Some(fault.clone());
        }
        told
    }

    fn set_next(&mut self, first: u64, texts: &[Bytes]) -> Result<Told, Fault> {
        let mark = self.file.mark().map_err(broken)?;
        self.read_up_to(mark)?;
        if first != self.cells.next() {
            self.settle()?;
        }
        if first < self.cells.next() {
            return Ok(Told::Taken);
        }
        if first > self.cells.next() {
            return Ok(Told::Gap);
        }
        let own = self.append(&record::written(first, texts))?;
        self.settle()?;
        Ok(self.told_of(first, own))
    }

    /// What became of a record that was appended there, with this cell first.
    fn told_of(&self, first: u64, own: Range<u64>) -> Told {
        let left_at = self.cells.left_at();
        let won = if first > self.cells.removed() {
            let place = self.cells.from(first).first();
            place.is_some_and(|place| own.contains(&place.at))
        } else if own.start < left_at && !own.contains(&left_at) {
            // It stood where all was wiped out: nobody knows which record was the first there.
            return Told::Unsure;
        } else {
            // Of the first record that is left the first cells may be removed.
            own.contains(&left_at)
        };
        match won {
            true => Told::Set,
            false => Told::Taken,
        }
    }

    /// Writes a record at the end.
    fn append(&mut self, record: &[u8]) -> Result<Range<u64>, Fault> {
        let written = self.file.append(record).map_err(fault_of_write)?;
        if written.end - written.start < record.len() as u64 {
            return Err(Fault::Full);
        }
        Ok(written)
    }

    /// Has all that is in the file kept, and reads it. Where something was wiped out meanwhile, that is told behind what was read.
    fn settle(&mut self) -> Result<(), Fault> {
        loop {
            let length = self.file.length().map_err(broken)?;
            if self.file.mark().map_err(broken)? < length {
                self.file.sync().map_err(broken)?;
                self.file.set_mark(length).map_err(broken)?;
            }
            let is_whole = self.read_up_to(length)?;
            if is_whole || self.file.length().map_err(broken)? == length {
                return Ok(());
            }
        }
    }

    /// Reads on, to a place up to which nothing can be lost. Tells whether nothing was met that may be what is left of wiped lines.
    fn read_up_to(&mut self, end: u64) -> Result<bool, Fault> {
        let mut rest = Vec::new();
        let mut at = self.cells.read_to();
        while at < end {
            let mut bytes = vec![0; (end - at).min(MOST_READ) as usize];
            self.file.read(at, &mut bytes).map_err(broken)?;
            at += bytes.len() as u64;
            let ended = memchr::memrchr(b'\n', &bytes);
            let ended = ended.map_or(0, |at| rest.len() + at + 1);
            rest.extend_from_slice(&bytes);
            if self.cells.take_lines(&rest[..ended]) {
                rest.drain(..ended);
            } else {
                rest.clear();
                at = self.cells.read_to();
            }
        }
        // A line that was wiped out to its end is met as one that has none.
        Ok(!self.cells.take_hole() && !rest.contains(&0))
    }

    /// The text of a cell; none where it was wiped out since its line was read.
    fn text(&self, place: Place) -> Result<Option<Bytes>, Fault> {
        let mut text = vec![0; place.length as usize];
        match self.file.read(place.at, &mut text) {
            Ok(()) => Ok((crc32fast::hash(&text) == place.sum).then(|| text.into())),
            Err(error) if error.kind() == io::ErrorKind::UnexpectedEof => {
                Err(Fault::Broken("the end of a row is gone".to_owned()))
            }
            Err(error) => Err(broken(error)),
        }
    }
}
