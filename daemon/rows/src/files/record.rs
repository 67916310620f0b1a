//! A record: cells that are set together, as bytes of a row's file.
//!
//! `number sum text`, with a tab before each further text, and a line feed before and after it all. So a record that was torn ends at the next
//! one's first line feed, and is no record, since its sum is another. That cells are removed is told by `trimmed sum last first at`.
use bytes::Bytes;
use crc32fast::Hasher;
use std::ops::Range;

/// The cells of one record: the first one's number, and where each text lies in the record's line.
#[derive(Debug, PartialEq, Eq)]
pub(super) struct Record {
    pub(super) first: u64,
    pub(super) texts: Vec<Range<usize>>,
}

/// That the cells before `last` are removed: the line of the record that has it begins there, with cell `first`.
#[derive(Clone, Copy, Debug, PartialEq, Eq)]
pub(super) struct Trimmed {
    pub(super) last: u64,
    pub(super) first: u64,
    pub(super) at: u64,
}

/// What a line tells.
#[derive(Debug, PartialEq, Eq)]
pub(super) enum Line {
    Cells(Record),
    Trimmed(Trimmed),
}

/// What stands in place of a number before what is told of removed cells.
const TRIMMED: &str = "trimmed";

/// The record of these cells.
pub(super) fn written(first: u64, texts: &[Bytes]) -> Vec<u8> {
    let told = texts.join(&b'\t');
    let mut record = format!("\n{first} {} ", sum_of(first, &told)).into_bytes();
    record.extend_from_slice(&told);
    record.push(b'\n');
    record
}

/// The bytes that tell of removed cells.
pub(super) fn written_trimmed(it: Trimmed) -> Vec<u8> {
    let told = format!("{} {} {}", it.last, it.first, it.at);
    format!("\n{TRIMMED} {} {told}\n", sum_of(0, told.as_bytes())).into_bytes()
}

/// What a line tells, where it is a record.
pub(super) fn read(line: &[u8]) -> Option<Line> {
    let mut parts = line.splitn(3, |byte| *byte == b' ');
    let word = std::str::from_utf8(parts.next()?).ok()?;
    let (sum, told) = (parts.next()?, parts.next()?);
    let is_whole = |number| sum == sum_of(number, told).as_bytes();
    if word == TRIMMED {
        return is_whole(0).then(|| read_trimmed(told))?.map(Line::Trimmed);
    }
    let first = word.parse().ok().filter(|first| is_whole(*first))?;
    Some(Line::Cells(Record {
        first,
        texts: ranges(line.len() - told.len(), told),
    }))
}

fn read_trimmed(told: &[u8]) -> Option<Trimmed> {
    let mut numbers = std::str::from_utf8(told).ok()?.split(' ');
    let mut next = || numbers.next()?.parse().ok();
    Some(Trimmed {
        last: next()?,
        first: next()?,
        at: next()?,
    })
}

/// Tells a record that was torn. Who changes a text meets the hash in the next one.
fn sum_of(first: u64, told: &[u8]) -> String {
    let mut sum = Hasher::new();
    sum.update(&first.to_le_bytes());
    sum.update(told);
    format!("{:08x}", sum.finalize())
}

/// Where each text lies, of which the first begins there.
fn ranges(begin: usize, told: &[u8]) -> Vec<Range<usize>> {
    let mut at = 0;
    let ends = memchr::memchr_iter(b'\t', told).chain([told.len()]);
    ends.map(|end| begin + std::mem::replace(&mut at, end + 1)..begin + end)
        .collect()
}

#[cfg(test)]
mod tests {
    use super::{read, written, written_trimmed, Line, Trimmed};
    use bytes::Bytes;

    fn line_of(first: u64, texts: &[&'static str]) -> Vec<u8> {
        let texts: Vec<Bytes> = texts.iter().map(|text| Bytes::from(*text)).collect();
        let record = written(first, &texts);
        record[1..record.len() - 1].to_vec()
    }

    #[test]
    fn a_record_is_read_as_it_was_written() {
        let line = line_of(7, &["{\"a\":1}", "", "b c"]);
        let Some(Line::Cells(record)) = read(&line) else {
            panic!("it is a record");
        };
        let texts: Vec<&[u8]> = record.texts.iter().map(|at| &line[at.clone()]).collect();
        assert_eq!(record.first, 7);
        assert_eq!(texts, [&b"{\"a\":1}"[..], b"", b"b c"]);
    }

    const REMOVED: Trimmed = Trimmed {
        last: 70,
        first: 69,
        at: 4_000,
    };

    fn line_of_removed() -> Vec<u8> {
        let record = written_trimmed(REMOVED);
        record[1..record.len() - 1].to_vec()
    }

    #[test]
    fn that_cells_are_removed_is_read_as_it_was_written() {
        assert_eq!(read(&line_of_removed()), Some(Line::Trimmed(REMOVED)));
    }

    #[test]
    fn what_is_torn_or_changed_is_no_record() {
        for line in [line_of(7, &["one", "two"]), line_of_removed()] {
            for end in 0..line.len() {
                assert_eq!(read(&line[..end]), None, "{end}");
            }
            for at in 0..line.len() {
                let mut changed = line.clone();
                changed[at] ^= 1;
                assert_eq!(read(&changed), None, "{at}");
            }
        }
    }
}
