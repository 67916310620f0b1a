//! Client lines, as they are asked: those of one member that have come go together into one call.
use crate::row_member::{MOST_BYTES, MOST_COMMANDS};
use serde::Deserialize;
use serde_json::value::RawValue;
use std::io;
use tokio::io::{AsyncBufRead, AsyncBufReadExt};

/// A line of a client.
#[derive(Debug, Deserialize)]
#[serde(deny_unknown_fields)]
struct Line {
    at: u32,
    command: Box<RawValue>,
}

/// What is asked next.
#[derive(Debug)]
pub(super) enum Next {
    /// The commands of lines that follow each other, of the member of this number.
    Call(u32, Vec<Box<RawValue>>),
    /// A line that is no client line.
    BadLine,
}

/// Lines that are read.
pub(super) struct Lines<R> {
    read: R,
    /// A line that was read and goes into no call before it.
    ahead: Option<String>,
}

impl<R: AsyncBufRead + Unpin> Lines<R> {
    pub(super) fn of(read: R) -> Lines<R> {
        Lines { read, ahead: None }
    }

    /// What is asked next; none at the end. Waits for the first line of a call, and for no other.
    ///
    /// # Errors
    /// Where lines can't be read.
    pub(super) async fn next(&mut self) -> io::Result<Option<Next>> {
        let text = match self.ahead.take() {
            Some(text) => Some(text),
            None => self.line().await?,
        };
        let Some(text) = text else {
            return Ok(None);
        };
        let Ok(Line { at, command }) = serde_json::from_str(&text) else {
            return Ok(Some(Next::BadLine));
        };
        let mut bytes = command.get().len();
        let mut commands = vec![command];
        while commands.len() < MOST_COMMANDS {
            let Some(text) = self.line_that_came().await? else {
                break;
            };
            bytes += text.len();
            match serde_json::from_str(&text) {
                Ok(Line { at: other, command }) if other == at && bytes <= MOST_BYTES => {
                    commands.push(command);
                }
                _ => {
                    self.ahead = Some(text);
                    break;
                }
            }
        }
        Ok(Some(Next::Call(at, commands)))
    }

    async fn line(&mut self) -> io::Result<Option<String>> {
        let mut text = String::new();
        let length = self.read.read_line(&mut text).await?;
        Ok((length > 0).then_some(text))
    }

    /// The next line, where it has come whole.
    async fn line_that_came(&mut self) -> io::Result<Option<String>> {
        let has_come = tokio::select! {
            biased;
            come = self.read.fill_buf() => come?.contains(&b'\n'),
            () = std::future::ready(()) => false,
        };
        match has_come {
            true => self.line().await,
            false => Ok(None),
        }
    }
}

#[cfg(test)]
mod tests {
    use super::{Lines, Next};
    use crate::row_member::{MOST_BYTES, MOST_COMMANDS};
    use tokio::io::{duplex, AsyncWriteExt, BufReader};

    fn line(at: u32, command: &str) -> String {
        format!("{{\"at\":{at},\"command\":\"{command}\"}}\n")
    }

    /// How many lines each call has, of which member; of a line that is none, nothing.
    async fn calls(text: &str) -> Vec<Option<(u32, usize)>> {
        let mut lines = Lines::of(text.as_bytes());
        let mut calls = Vec::new();
        while let Some(next) = lines.next().await.unwrap() {
            calls.push(match next {
                Next::Call(at, commands) => Some((at, commands.len())),
                Next::BadLine => None,
            });
        }
        calls
    }

    #[tokio::test]
    async fn lines_of_one_member_go_together() {
        let one = line(1, "a");
        let text = [&one, &one, &line(2, "b"), "{}\n", &one, "no", "\n", &one].concat();
        let wanted = [
            Some((1, 2)),
            Some((2, 1)),
            None,
            Some((1, 1)),
            None,
            Some((1, 1)),
        ];
        assert_eq!(calls(&text).await, wanted);
        assert_eq!(calls(one.trim_end()).await, [Some((1, 1))]);
        assert!(calls("").await.is_empty());
    }

    #[tokio::test]
    async fn a_call_has_no_more_than_a_message() {
        let many = line(3, "a").repeat(MOST_COMMANDS + 1);
        assert_eq!(calls(&many).await, [Some((3, MOST_COMMANDS)), Some((3, 1))]);
        let long = line(1, &"a".repeat(MOST_BYTES / 2)).repeat(2);
        assert_eq!(calls(&long).await, [Some((1, 1)), Some((1, 1))]);
    }

    #[tokio::test]
    async fn a_line_that_has_not_come_is_not_waited_for() {
        let (mut writes, reads) = duplex(1 << 10);
        let mut lines = Lines::of(BufReader::new(reads));
        let (whole, half) = (line(1, "a"), r#"{"at":1,"#);
        for before in [whole.clone(), whole.clone() + half] {
            writes.write_all(before.as_bytes()).await.unwrap();
            let next = lines.next().await.unwrap();
            assert!(matches!(next, Some(Next::Call(1, commands)) if commands.len() == 1));
        }
        let rest = &whole[half.len()..];
        writes.write_all(rest.as_bytes()).await.unwrap();
        drop(writes);
        let next = lines.next().await.unwrap();
        assert!(matches!(next, Some(Next::Call(1, commands)) if commands.len() == 1));
        assert!(lines.next().await.unwrap().is_none());
    }
}
