//! Tidings of a row's mark, by the kernel.
use crate::engine::Tidings;
use async_trait::async_trait;
use bytes::Bytes;
use inotify::{Inotify, WatchMask};
use std::io;
use std::os::unix::io::{AsRawFd, RawFd};
use std::path::Path;
use std::time::Duration;
use tokio::io::unix::AsyncFd;

/// How many tidings are taken at once, each of so many bytes, as it names no file of a folder.
const ROOM: usize = 64;
const EVENT: usize = 16;

/// What tells that the mark was set.
pub(super) struct Marked(AsyncFd<Watch>);

struct Watch(Inotify);

impl AsRawFd for Watch {
    fn as_raw_fd(&self) -> RawFd {
        self.0.as_raw_fd()
    }
}

impl Marked {
    /// Of the mark at a path. It is to be asked where a runtime of tokio runs.
    pub(super) fn of(path: &Path) -> io::Result<Marked> {
        let mut inotify = Inotify::init()?;
        inotify.add_watch(path, WatchMask::MODIFY)?;
        Ok(Marked(AsyncFd::new(Watch(inotify))?))
    }
}

impl Marked {
    /// Takes what was told, all of it: the next tiding is of what comes after.
    fn take(watch: &mut Watch) {
        let mut told = [0; ROOM * EVENT];
        let mut is_full = true;
        while is_full {
            let events = watch.0.read_events(&mut told);
            is_full = events.is_ok_and(|events| events.count() == ROOM);
        }
    }
}

#[async_trait]
impl Tidings for Marked {
    async fn wait(&mut self, _next: u64, longest: Duration) -> Vec<Bytes> {
        let ready = tokio::time::timeout(longest, self.0.readable_mut()).await;
        if let Ok(Ok(mut ready)) = ready {
            Marked::take(ready.get_inner_mut());
            ready.clear_ready();
        }
        Vec::new()
    }
}
