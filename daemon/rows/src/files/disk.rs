//! What the engine asks of a disk: the machine's own, or one that a test has made.
use nix::errno::Errno;
use nix::fcntl::{fallocate, FallocateFlags};
use nix::sys::statfs::{statfs, NFS_SUPER_MAGIC};
use std::fs::{self, File, OpenOptions};
use std::io::{self, ErrorKind, Seek, Write};
use std::ops::Range;
use std::os::unix::fs::FileExt;
use std::os::unix::io::AsRawFd;
use std::path::{Path, PathBuf};

/// A disk. All that is opened at one path is one file.
pub trait Disk: Send + Sync {
    /// The file at a path, made with its folders where it is not there; that it is there can't be lost then.
    ///
    /// # Errors
    /// Where it can't be opened, or made.
    fn open(&self, path: &Path) -> io::Result<Box<dyn RowFile>>;
}

/// A file that only grows, and of which the beginning may be wiped out; and beside it a mark, which tells how much of it can't be lost.
pub trait RowFile: Send {
    /// Writes at the end, by one write, where no other writer's bytes come between. Tells which bytes of the file are those that were written:
    /// all, or the first of them.
    ///
    /// # Errors
    /// Where none was.
    fn append(&mut self, bytes: &[u8]) -> io::Result<Range<u64>>;

    /// Wipes out the bytes before a place: they are zeros then, and take no room on the disk where that can be. A loss of power may bring
    /// some of them back.
    ///
    /// # Errors
    /// Where it can't be done.
    fn wipe(&mut self, end: u64) -> io::Result<()>;

    /// Returns once all that any process has written can't be lost.
    ///
    /// # Errors
    /// Where it can; and then nothing is known of the file, whatever a later call tells.
    fn sync(&mut self) -> io::Result<()>;

    /// How long it is.
    ///
    /// # Errors
    /// Where it can't be told.
    fn length(&self) -> io::Result<u64>;

    /// Reads all of these bytes from a place on.
    ///
    /// # Errors
    /// Where they can't be read, or are not there.
    fn read(&self, at: u64, bytes: &mut [u8]) -> io::Result<()>;

    /// The mark. It may be behind, and is never ahead of what can't be lost.
    ///
    /// # Errors
    /// Where it can't be read.
    fn mark(&self) -> io::Result<u64>;

    /// Sets the mark. It need not outlive a loss of power.
    ///
    /// # Errors
    /// Where it can't be set.
    fn set_mark(&mut self, length: u64) -> io::Result<()>;
}

/// The machine's own disk.
#[derive(Clone, Copy, Debug)]
pub struct OwnDisk;

/// Where the mark of a row's file lies.
pub(super) fn mark_of(path: &Path) -> PathBuf {
    path.with_extension("mark")
}

struct OwnFile {
    file: File,
    mark: File,
}

/// Makes a folder and those above it, and has the disk keep each one's entry.
fn make_folder(path: &Path) -> io::Result<()> {
    if path.is_dir() {
        return Ok(());
    }
    let above = path.parent().unwrap_or(Path::new("/"));
    make_folder(above)?;
    match fs::create_dir(path) {
        Err(error) if error.kind() != ErrorKind::AlreadyExists => Err(error),
        _ => File::open(above)?.sync_all(),
    }
}

/// A file system of a network tells things that other machines don't see, and takes appends apart.
fn refuse_network(folder: &Path) -> io::Result<()> {
    if statfs(folder)?.filesystem_type() == NFS_SUPER_MAGIC {
        return Err(io::Error::new(
            ErrorKind::Unsupported,
            "rows are never kept on NFS",
        ));
    }
    Ok(())
}

impl Disk for OwnDisk {
    fn open(&self, path: &Path) -> io::Result<Box<dyn RowFile>> {
        let folder = path.parent().unwrap_or(Path::new("."));
        make_folder(folder)?;
        refuse_network(folder)?;
        let open = |path: &Path, how: &mut OpenOptions| how.read(true).create(true).open(path);
        let file = open(path, OpenOptions::new().append(true))?;
        let mark = open(&mark_of(path), OpenOptions::new().write(true))?;
        File::open(folder)?.sync_all()?;
        Ok(Box::new(OwnFile { file, mark }))
    }
}

impl RowFile for OwnFile {
    fn append(&mut self, bytes: &[u8]) -> io::Result<Range<u64>> {
        let length = self.file.write(bytes)? as u64;
        // A write at the end leaves this descriptor's place behind what it wrote.
        let end = self.file.stream_position()?;
        Ok(end - length..end)
    }

    fn wipe(&mut self, end: u64) -> io::Result<()> {
        let length = i64::try_from(end).unwrap_or(i64::MAX);
        let how = FallocateFlags::FALLOC_FL_PUNCH_HOLE | FallocateFlags::FALLOC_FL_KEEP_SIZE;
        match fallocate(self.file.as_raw_fd(), how, 0, length) {
            // This file system keeps them: they are in nobody's way.
            Err(Errno::EOPNOTSUPP) => Ok(()),
            wiped => Ok(wiped?),
        }
    }

    fn sync(&mut self) -> io::Result<()> {
        self.file.sync_data()
    }

    fn length(&self) -> io::Result<u64> {
        Ok(self.file.metadata()?.len())
    }

    fn read(&self, at: u64, bytes: &mut [u8]) -> io::Result<()> {
        self.file.read_exact_at(bytes, at)
    }

    fn mark(&self) -> io::Result<u64> {
        let mut length = [0; 8];
        match self.mark.read_exact_at(&mut length, 0) {
            Err(error) if error.kind() == ErrorKind::UnexpectedEof => Ok(0),
            read => read.map(|()| u64::from_le_bytes(length)),
        }
    }

    fn set_mark(&mut self, length: u64) -> io::Result<()> {
        self.mark.write_all_at(&length.to_le_bytes(), 0)
    }
}
