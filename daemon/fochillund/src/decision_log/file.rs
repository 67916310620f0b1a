//! A file of lines, of which another is begun at a size.
use std::fs::{File, OpenOptions};
use std::io::{self, Read, Seek, SeekFrom, Write};
use std::os::unix::fs::OpenOptionsExt;
use std::path::{Path, PathBuf};

/// A file that only grows, until it is moved aside.
#[derive(Debug)]
pub(super) struct LogFile {
    path: PathBuf,
    file: File,
    bytes: u64,
    most_bytes: u64,
    kept: u32,
    syncs: bool,
}

impl LogFile {
    pub(super) fn of(path: &Path, most_bytes: u64, kept: u32, syncs: bool) -> io::Result<LogFile> {
        let (file, bytes) = opened(path)?;
        Ok(LogFile {
            path: path.to_owned(),
            file,
            bytes,
            most_bytes,
            kept,
            syncs,
        })
    }

    /// Opens the file of this path, which may be another one by now.
    pub(super) fn reopen(&mut self) -> io::Result<()> {
        (self.file, self.bytes) = opened(&self.path)?;
        Ok(())
    }

    /// Writes whole lines, all of them or nothing.
    pub(super) fn write(&mut self, text: &[u8]) -> io::Result<()> {
        if self.bytes > 0 && self.bytes + text.len() as u64 > self.most_bytes {
            self.begin_another()?;
        }
        let written = self.file.write_all(text);
        let written = written.and_then(|()| match self.syncs {
            true => self.file.sync_data(),
            false => Ok(()),
        });
        match written {
            Ok(()) => self.bytes += text.len() as u64,
            // A part of a line is no line. What is no plain file keeps what it took.
            Err(_) => drop(self.file.set_len(self.bytes)),
        }
        written
    }

    fn begin_another(&mut self) -> io::Result<()> {
        let aside = |number: u32| {
            let mut name = self.path.clone().into_os_string();
            name.push(format!(".{number}"));
            PathBuf::from(name)
        };
        for number in (1..self.kept).rev() {
            move_aside(&aside(number), &aside(number + 1))?;
        }
        match self.kept {
            0 => std::fs::remove_file(&self.path)?,
            _ => move_aside(&self.path, &aside(1))?,
        }
        self.reopen()
    }
}

fn move_aside(from: &Path, to: &Path) -> io::Result<()> {
    match std::fs::rename(from, to) {
        Err(error) if error.kind() != io::ErrorKind::NotFound => Err(error),
        _ => Ok(()),
    }
}

/// The file, which is its owner's alone where it is new, and its length. A line that a lost process has not ended is ended.
fn opened(path: &Path) -> io::Result<(File, u64)> {
    let mut options = OpenOptions::new();
    let options = options.read(true).append(true).create(true).mode(0o600);
    let mut file = options.open(path)?;
    let about = file.metadata()?;
    if !about.is_file() || about.len() == 0 {
        return Ok((file, 0));
    }
    let mut last = [0];
    file.seek(SeekFrom::End(-1))?;
    file.read_exact(&mut last)?;
    if last == *b"\n" {
        return Ok((file, about.len()));
    }
    file.write_all(b"\n")?;
    Ok((file, about.len() + 1))
}
