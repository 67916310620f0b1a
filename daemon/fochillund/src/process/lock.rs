//! A polite lock: of two healthy processes of one member the second waits. What keeps them apart is the row.
use nix::fcntl::{flock, FlockArg};
use std::fs::{self, File};
use std::io;
use std::os::fd::AsRawFd;
use std::path::Path;

/// Held for as long as it lives, and by nobody once its process ended.
pub(super) struct Lock {
    _file: File,
}

impl Lock {
    /// Takes the lock of a node, once it is free.
    pub(super) async fn take(folder: &Path, node: &str) -> io::Result<Lock> {
        fs::create_dir_all(folder)?;
        let file = File::create(folder.join(format!("{node}.lock")))?;
        if flock(file.as_raw_fd(), FlockArg::LockExclusiveNonblock).is_ok() {
            return Ok(Lock { _file: file });
        }
        tracing::info!("{node} has a process; this one waits for its end");
        let waiting = tokio::task::spawn_blocking(move || {
            flock(file.as_raw_fd(), FlockArg::LockExclusive)?;
            Ok(Lock { _file: file })
        });
        waiting.await.map_err(io::Error::other)?
    }
}
