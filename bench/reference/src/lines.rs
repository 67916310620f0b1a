//! Cuts an input into lines.

use std::io::{self, BufRead, Read};

/// Lines end at a line feed, or at the end of the input. An input that ends with a line feed has no further line.
pub struct Lines<R> {
    input: R,
    longest: usize,
    line: Vec<u8>,
}

impl<R: BufRead> Lines<R> {
    pub fn new(input: R, longest: usize) -> Lines<R> {
        Lines { input, longest, line: Vec::new() }
    }

    /// The next line without its line feed. Of a line that is too long one byte more than it may have is given, which shows it, and
    /// the rest is skipped.
    pub fn next(&mut self) -> io::Result<Option<&[u8]>> {
        let most = self.longest as u64 + 1;
        self.line.clear();
        let taken = (&mut self.input).take(most).read_until(b'\n', &mut self.line)?;
        if taken == 0 {
            return Ok(None);
        }
        if self.line.last() == Some(&b'\n') {
            self.line.pop();
        } else if self.line.len() > self.longest {
            self.input.skip_until(b'\n')?;
        }
        Ok(Some(&self.line))
    }
}

#[cfg(test)]
mod tests {
    use super::*;
    use crate::limits::LINE_BYTES;

    fn lengths(input: &[u8]) -> Vec<usize> {
        let mut lines = Lines::new(input, LINE_BYTES);
        let mut lengths = Vec::new();
        while let Some(line) = lines.next().unwrap() {
            lengths.push(line.len());
        }
        lengths
    }

    #[test]
    fn lines_end_at_a_line_feed_or_at_the_end() {
        assert_eq!(lengths(b""), []);
        assert_eq!(lengths(b"\n"), [0]);
        assert_eq!(lengths(b"a"), [1]);
        assert_eq!(lengths(b"a\n\r\nbc"), [1, 1, 2]);
        assert_eq!(lengths(b"a\n"), [1]);
    }

    #[test]
    fn the_rest_of_a_line_that_is_too_long_is_skipped() {
        for length in [65_535, 65_536, 65_537, 65_538, 200_000] {
            let wanted = length.min(65_537);
            let line = "a".repeat(length);
            assert_eq!(lengths(line.as_bytes()), [wanted]);
            assert_eq!(lengths(format!("{line}\nbc\n").as_bytes()), [wanted, 2]);
        }
    }
}
