//! The decision log: a line of JSON for each decision, of a file or standard output, which a thread of its own writes.
mod file;
mod line;
pub mod replay;

pub use line::{Line, View};

use crate::metrics::Metrics;
use clap::Args;
use file::LogFile;
use std::collections::VecDeque;
use std::io::{self, Write};
use std::path::{Path, PathBuf};
use std::sync::atomic::{AtomicBool, Ordering};
use std::sync::{Arc, Mutex, PoisonError};
use tokio::sync::{broadcast, mpsc, oneshot};

/// How many requests wait for their lines to be written.
const ROOM: usize = 1024;

/// The most bytes that are written at once.
const TOGETHER: usize = 1 << 20;

/// How many lines are told to who begins to follow the log.
const LAST_LINES: usize = 100;

/// How many lines a follower may be behind.
const FOLLOWED: usize = 256;

/// The route of a command that is tried: no history has it.
pub const TRY: &str = "try";

/// Where decisions are written.
#[derive(Args, Clone, Debug, Default)]
pub struct LogOptions {
    /// Write a line of JSON for each decision to this file, or to standard output (-). Lines are dropped, and counted, where they can't be written
    #[arg(long)]
    pub decision_log: Option<PathBuf>,
    /// Tell no answer whose line is not written, and synced
    #[arg(long, requires = "decision_log")]
    pub decision_log_required: bool,
    /// Begin another file at so many bytes
    #[arg(long, default_value_t = 1 << 28, requires = "decision_log")]
    pub decision_log_bytes: u64,
    /// How many files before that are kept, as FILE.1, FILE.2 and so on
    #[arg(long, default_value_t = 8, requires = "decision_log")]
    pub decision_log_files: u32,
}

/// A request's lines can't be written.
#[derive(Clone, Copy, Debug, PartialEq, Eq)]
pub struct NotLogged;

/// Lines to be written, and who waits until they are.
struct Lines {
    text: Vec<u8>,
    lines: usize,
    told: Option<oneshot::Sender<bool>>,
}

/// What writes the log.
#[derive(Debug)]
pub struct DecisionLog {
    lines: mpsc::Sender<Lines>,
    is_required: bool,
    reopens: Arc<AtomicBool>,
    metrics: Arc<Metrics>,
    last: Mutex<VecDeque<Arc<str>>>,
    followers: broadcast::Sender<Arc<str>>,
}

/// Where lines go.
enum Out {
    File(LogFile),
    Standard,
}

impl DecisionLog {
    /// Opens a log, where one is asked for.
    ///
    /// # Errors
    /// Where its file can't be opened.
    pub fn of(options: &LogOptions, metrics: Arc<Metrics>) -> io::Result<Option<DecisionLog>> {
        let Some(path) = &options.decision_log else {
            return Ok(None);
        };
        let out = match path == Path::new("-") {
            true => Out::Standard,
            false => Out::File(LogFile::of(
                path,
                options.decision_log_bytes,
                options.decision_log_files,
                options.decision_log_required,
            )?),
        };
        let (lines, written) = mpsc::channel(ROOM);
        let reopens = Arc::new(AtomicBool::new(false));
        let writer = Writer {
            out,
            reopens: Arc::clone(&reopens),
            metrics: Arc::clone(&metrics),
        };
        std::thread::Builder::new()
            .name("decision log".to_owned())
            .spawn(move || writer.run(written))?;
        Ok(Some(DecisionLog {
            lines,
            is_required: options.decision_log_required,
            reopens,
            metrics,
            last: Mutex::default(),
            followers: broadcast::channel(FOLLOWED).0,
        }))
    }

    /// The last lines, and what is written behind them as it comes.
    pub fn follow(&self) -> (Vec<Arc<str>>, broadcast::Receiver<Arc<str>>) {
        let last = self.last.lock().unwrap_or_else(PoisonError::into_inner);
        (last.iter().cloned().collect(), self.followers.subscribe())
    }

    /// Tells followers what was written.
    fn tell(&self, text: &str) {
        let mut last = self.last.lock().unwrap_or_else(PoisonError::into_inner);
        for line in text.lines() {
            let line: Arc<str> = line.into();
            if last.len() == LAST_LINES {
                last.pop_front();
            }
            last.push_back(Arc::clone(&line));
            // Nobody has to follow.
            let _ = self.followers.send(line);
        }
    }

    /// Opens the file again before the next line: somebody has moved it.
    pub fn reopen(&self) {
        self.reopens.store(true, Ordering::Relaxed);
    }

    /// Writes lines.
    ///
    /// # Errors
    /// Where they are required and can't be written. Where they are not, they are dropped then, and counted.
    pub async fn write(&self, lines: &[Line]) -> Result<(), NotLogged> {
        let mut text = Vec::with_capacity(lines.len() * 256);
        for line in lines {
            serde_json::to_writer(&mut text, line).expect("a line is JSON");
            text.push(b'\n');
        }
        let count = lines.len();
        let told = String::from_utf8(text.clone()).expect("JSON is UTF-8");
        if self.is_required {
            let (tell, written) = oneshot::channel();
            let lines = Lines {
                text,
                lines: count,
                told: Some(tell),
            };
            self.lines.send(lines).await.map_err(|_| NotLogged)?;
            let is_written = written.await == Ok(true);
            if is_written {
                self.tell(&told);
            }
            return is_written.then_some(()).ok_or(NotLogged);
        }
        let lines = Lines {
            text,
            lines: count,
            told: None,
        };
        match self.lines.try_send(lines) {
            Ok(()) => self.tell(&told),
            Err(_) => self.metrics.dropped(count),
        }
        Ok(())
    }
}

struct Writer {
    out: Out,
    reopens: Arc<AtomicBool>,
    metrics: Arc<Metrics>,
}

impl Writer {
    fn run(mut self, mut asked: mpsc::Receiver<Lines>) {
        while let Some(first) = asked.blocking_recv() {
            let (mut text, mut count) = (first.text, first.lines);
            let mut waiting: Vec<_> = first.told.into_iter().collect();
            while text.len() < TOGETHER {
                let Ok(more) = asked.try_recv() else {
                    break;
                };
                text.extend_from_slice(&more.text);
                count += more.lines;
                waiting.extend(more.told);
            }
            let written = self.write(&text);
            if let Err(error) = &written {
                tracing::warn!("the decision log: {error}");
                self.metrics.dropped(count);
            }
            for waiter in waiting {
                let _ = waiter.send(written.is_ok());
            }
        }
    }

    fn write(&mut self, text: &[u8]) -> io::Result<()> {
        match &mut self.out {
            Out::File(file) => {
                if self.reopens.swap(false, Ordering::Relaxed) {
                    file.reopen()?;
                }
                file.write(text)
            }
            Out::Standard => {
                let mut out = io::stdout().lock();
                out.write_all(text)?;
                out.flush()
            }
        }
    }
}

#[cfg(test)]
mod tests {
    use super::{DecisionLog, Line, LogOptions, NotLogged};
    use crate::metrics::Metrics;
    use std::path::Path;
    use std::sync::Arc;

    fn options(path: &Path, is_required: bool) -> LogOptions {
        LogOptions {
            decision_log: Some(path.to_owned()),
            decision_log_required: is_required,
            decision_log_bytes: 1000,
            decision_log_files: 2,
        }
    }

    fn lines(count: usize) -> Vec<Line> {
        let line = |number: usize| Line {
            request_id: Some(number.to_string()),
            ..Line::of("clinic", "evaluation", 1)
        };
        (1..=count).map(line).collect()
    }

    #[tokio::test]
    async fn a_line_that_is_required_is_there_and_old_files_go() {
        let folder = tempfile::tempdir().unwrap();
        let path = folder.path().join("log");
        let metrics = Arc::new(Metrics::new());
        let log = DecisionLog::of(&options(&path, true), metrics).unwrap();
        let log = log.unwrap();
        for line in lines(30) {
            log.write(std::slice::from_ref(&line)).await.unwrap();
            let text = std::fs::read_to_string(&path).unwrap();
            let last: Line = serde_json::from_str(text.lines().last().unwrap()).unwrap();
            assert_eq!(last.request_id, line.request_id);
            assert!(text.len() <= 1000);
        }
        let files = ["log", "log.1", "log.2", "log.3"].map(|name| folder.path().join(name));
        assert_eq!(files.map(|file| file.exists()), [true, true, true, false]);
        std::fs::rename(&path, folder.path().join("moved")).unwrap();
        log.reopen();
        log.write(&lines(1)).await.unwrap();
        assert_eq!(std::fs::read_to_string(&path).unwrap().lines().count(), 1);
    }

    #[tokio::test]
    async fn what_can_not_be_written_is_not_told_or_counted() {
        // A device that is always full.
        let full = Path::new("/dev/full");
        let metrics = Arc::new(Metrics::new());
        let log = DecisionLog::of(&options(full, true), Arc::clone(&metrics)).unwrap();
        assert_eq!(log.unwrap().write(&lines(2)).await, Err(NotLogged));
        let log = DecisionLog::of(&options(full, false), Arc::clone(&metrics)).unwrap();
        let log = log.unwrap();
        assert_eq!(log.write(&lines(3)).await, Ok(()));
        for _ in 0..500 {
            if metrics.lines_dropped() == 5 {
                return;
            }
            tokio::time::sleep(std::time::Duration::from_millis(10)).await;
        }
        panic!("{} lines were counted", metrics.lines_dropped());
    }
}
