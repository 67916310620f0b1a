//! Doubles: a disk that forgets what was not synced, that fills up and that fails; and an engine whose replies are lost.
use async_trait::async_trait;
use bytes::Bytes;
use rand::rngs::StdRng;
use rand::{Rng, SeedableRng};
use rows::files::{Disk, RowFile};
use rows::{Engine, Fault, RowName, Tidings, Told};
use std::collections::HashMap;
use std::future::Future;
use std::io;
use std::ops::Range;
use std::path::{Path, PathBuf};
use std::sync::{Arc, Mutex};
use std::time::Duration;
use tokio::runtime::Builder;

/// What a file holds.
#[derive(Clone, Default)]
struct Held {
    bytes: Vec<u8>,
    synced: usize,
    mark: u64,
    /// What was wiped out and may come back.
    wiped: Vec<u8>,
}

/// What the disk does wrong from now on.
#[derive(Clone, Copy, Debug, PartialEq, Eq)]
pub enum Wrong {
    Nothing,
    /// So many bytes are left, in all files together.
    Room(usize),
    /// A sync fails, and what it was to keep is dropped.
    Sync,
}

/// What a file is asked for.
#[derive(Clone, Copy, Debug, PartialEq, Eq)]
pub enum Call {
    Append,
    Read,
    Sync,
}

/// What others do amid a process's use of the disk: before the next such call but so many.
struct Meanwhile {
    call: Call,
    but: usize,
    work: Box<dyn FnOnce() + Send>,
}

type Files = Arc<Mutex<HashMap<PathBuf, Arc<Mutex<Held>>>>>;

/// A disk in memory.
#[derive(Clone)]
pub struct ForgetfulDisk {
    files: Files,
    wrong: Arc<Mutex<Wrong>>,
    meanwhile: Arc<Mutex<Option<Meanwhile>>>,
}

impl ForgetfulDisk {
    pub fn new() -> ForgetfulDisk {
        ForgetfulDisk {
            files: Arc::default(),
            wrong: Arc::new(Mutex::new(Wrong::Nothing)),
            meanwhile: Arc::default(),
        }
    }

    /// Another disk that holds the same.
    pub fn copy(&self) -> ForgetfulDisk {
        let files = self.files.lock().unwrap();
        let copied = |held: &Arc<Mutex<Held>>| Arc::new(Mutex::new(held.lock().unwrap().clone()));
        let files = files
            .iter()
            .map(|(path, held)| (path.clone(), copied(held)));
        ForgetfulDisk {
            files: Arc::new(Mutex::new(files.collect())),
            ..ForgetfulDisk::new()
        }
    }

    /// Has this done once, before the next such call but so many: whoever makes it is paused until it is done.
    pub fn before(&self, call: Call, but: usize, work: impl Future<Output = ()> + Send + 'static) {
        let work = move || {
            let runtime = Builder::new_current_thread().enable_all().build().unwrap();
            let done = std::thread::spawn(move || runtime.block_on(work));
            done.join().unwrap();
        };
        let work = Box::new(work);
        *self.meanwhile.lock().unwrap() = Some(Meanwhile { call, but, work });
    }

    pub fn lose_marks(&self) {
        for held in self.files.lock().unwrap().values() {
            held.lock().unwrap().mark = 0;
        }
    }

    pub fn go_wrong(&self, wrong: Wrong) {
        *self.wrong.lock().unwrap() = wrong;
    }

    /// The power is lost: of each file what was synced is left, and some of the bytes behind it. Some of what was wiped out is there again. A
    /// mark may be lost too.
    pub fn lose_power(&self, random: &mut StdRng) {
        for held in self.files.lock().unwrap().values() {
            let mut held = held.lock().unwrap();
            let left = random.gen_range(held.synced..=held.bytes.len());
            held.bytes.truncate(left);
            held.synced = left;
            for (at, wiped) in std::mem::take(&mut held.wiped).chunks(16).enumerate() {
                if random.gen() {
                    held.bytes[at * 16..][..wiped.len()].copy_from_slice(wiped);
                }
            }
            if random.gen() {
                held.mark = 0;
            }
        }
    }
}

impl Disk for ForgetfulDisk {
    fn open(&self, path: &Path) -> io::Result<Box<dyn RowFile>> {
        let mut files = self.files.lock().unwrap();
        Ok(Box::new(ForgetfulFile {
            held: Arc::clone(files.entry(path.to_owned()).or_default()),
            wrong: Arc::clone(&self.wrong),
            meanwhile: Arc::clone(&self.meanwhile),
        }))
    }
}

struct ForgetfulFile {
    held: Arc<Mutex<Held>>,
    wrong: Arc<Mutex<Wrong>>,
    meanwhile: Arc<Mutex<Option<Meanwhile>>>,
}

impl ForgetfulFile {
    /// Does what is to be done before this call.
    fn pause(&self, call: Call) {
        let mut meanwhile = self.meanwhile.lock().unwrap();
        let Some(next) = meanwhile.as_mut().filter(|next| next.call == call) else {
            return;
        };
        if next.but > 0 {
            next.but -= 1;
            return;
        }
        let work = meanwhile.take().map(|next| next.work);
        drop(meanwhile);
        work.into_iter().for_each(|work| work());
    }
}

impl RowFile for ForgetfulFile {
    fn append(&mut self, bytes: &[u8]) -> io::Result<Range<u64>> {
        self.pause(Call::Append);
        let mut wrong = self.wrong.lock().unwrap();
        let mut length = bytes.len();
        if let Wrong::Room(left) = &mut *wrong {
            if *left == 0 {
                return Err(io::Error::from_raw_os_error(nix::libc::ENOSPC));
            }
            length = length.min(*left);
            *left -= length;
        }
        let mut held = self.held.lock().unwrap();
        let begin = held.bytes.len() as u64;
        held.bytes.extend_from_slice(&bytes[..length]);
        Ok(begin..begin + length as u64)
    }

    fn wipe(&mut self, end: u64) -> io::Result<()> {
        let mut held = self.held.lock().unwrap();
        let wiped = held.bytes[..end as usize].to_vec();
        held.bytes[..end as usize].fill(0);
        held.wiped = wiped;
        Ok(())
    }

    fn sync(&mut self) -> io::Result<()> {
        self.pause(Call::Sync);
        let mut held = self.held.lock().unwrap();
        if *self.wrong.lock().unwrap() == Wrong::Sync {
            let synced = held.synced;
            held.bytes.truncate(synced);
            return Err(io::Error::from_raw_os_error(nix::libc::EIO));
        }
        held.synced = held.bytes.len();
        Ok(())
    }

    fn length(&self) -> io::Result<u64> {
        Ok(self.held.lock().unwrap().bytes.len() as u64)
    }

    fn read(&self, at: u64, bytes: &mut [u8]) -> io::Result<()> {
        self.pause(Call::Read);
        let held = self.held.lock().unwrap();
        let from = held.bytes.get(at as usize..at as usize + bytes.len());
        bytes.copy_from_slice(from.ok_or(io::ErrorKind::UnexpectedEof)?);
        Ok(())
    }

    fn mark(&self) -> io::Result<u64> {
        Ok(self.held.lock().unwrap().mark)
    }

    fn set_mark(&mut self, length: u64) -> io::Result<()> {
        self.held.lock().unwrap().mark = length;
        Ok(())
    }
}

/// An engine of which each other reply is lost, before or after what was asked was done.
pub struct LossyEngine {
    engine: Arc<dyn Engine>,
    random: Mutex<StdRng>,
}

impl LossyEngine {
    pub fn of(engine: Arc<dyn Engine>, seed: u64) -> LossyEngine {
        LossyEngine {
            engine,
            random: Mutex::new(StdRng::seed_from_u64(seed)),
        }
    }

    fn loses(&self) -> bool {
        self.random.lock().unwrap().gen_ratio(1, 3)
    }
}

#[async_trait]
impl Engine for LossyEngine {
    async fn set(&self, row: &RowName, first: u64, texts: &[Bytes]) -> Result<Told, Fault> {
        if self.loses() {
            return Ok(Told::Unsure);
        }
        let told = self.engine.set(row, first, texts).await;
        if self.loses() {
            return Err(Fault::Silent("the reply is lost".to_owned()));
        }
        told
    }

    async fn get(&self, row: &RowName, first: u64) -> Result<Vec<Bytes>, Fault> {
        if self.loses() {
            return Err(Fault::Silent("the reply is lost".to_owned()));
        }
        self.engine.get(row, first).await
    }

    async fn trim(&self, row: &RowName, last: u64) -> Result<(), Fault> {
        if self.loses() {
            return Err(Fault::Silent("the request is lost".to_owned()));
        }
        let told = self.engine.trim(row, last).await;
        if self.loses() {
            return Err(Fault::Silent("the reply is lost".to_owned()));
        }
        told
    }

    async fn follow(&self, row: &RowName) -> Result<Box<dyn Tidings>, Fault> {
        self.engine.follow(row).await
    }
}

/// An engine that has one row, and whose tidings tell its texts.
#[derive(Clone, Default)]
pub struct TellingEngine {
    texts: Arc<Mutex<Vec<Bytes>>>,
    gets: Arc<Mutex<usize>>,
}

impl TellingEngine {
    pub fn put(&self, texts: &[Bytes]) {
        self.texts.lock().unwrap().extend_from_slice(texts);
    }

    /// How often it was asked for what it has.
    pub fn gets(&self) -> usize {
        *self.gets.lock().unwrap()
    }

    fn from(&self, first: u64) -> Vec<Bytes> {
        let texts = self.texts.lock().unwrap();
        texts.iter().skip(first as usize - 1).cloned().collect()
    }
}

#[async_trait]
impl Engine for TellingEngine {
    async fn set(&self, _: &RowName, _: u64, _: &[Bytes]) -> Result<Told, Fault> {
        Ok(Told::Gap)
    }

    async fn get(&self, _: &RowName, first: u64) -> Result<Vec<Bytes>, Fault> {
        *self.gets.lock().unwrap() += 1;
        Ok(self.from(first))
    }

    async fn trim(&self, _: &RowName, _: u64) -> Result<(), Fault> {
        Ok(())
    }

    async fn follow(&self, _: &RowName) -> Result<Box<dyn Tidings>, Fault> {
        Ok(Box::new(self.clone()))
    }
}

#[async_trait]
impl Tidings for TellingEngine {
    async fn wait(&mut self, next: u64, _: Duration) -> Vec<Bytes> {
        self.from(next)
    }
}
