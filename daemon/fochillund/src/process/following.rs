//! The rows of the generation that goes on, and the founding's row, as they grow.
use super::sealing::take_over;
use crate::generation::Generation;
use crate::node::Node;
use crate::row_member::check_ends;
use crate::stop::Stop;
use bytes::Bytes;
use rows::cell::{Cell, Chain, Sent};
use rows::{sure_get, Engine, Fault, Follower, RowName, SWEEP};
use std::sync::atomic::{AtomicU64, Ordering};
use std::sync::Arc;
use tokio::sync::mpsc;
use tokio::task::JoinSet;

/// What was read of rows.
pub(super) enum Read {
    /// The next cells of another member's row.
    Cells {
        /// The entry into a generation since which it was followed.
        entry: u64,
        member: u32,
        cells: Vec<Sent>,
    },
    /// A cell of the node's own row that another process has set.
    Own {
        generation: u64,
        number: u64,
        text: Bytes,
    },
    /// The next cells of the founding's row.
    Foundings(Vec<Bytes>),
    /// A row can be followed no further.
    Stop(Stop),
}

/// The tasks that read rows.
pub(super) struct Following {
    engine: Arc<dyn Engine>,
    /// Of which generation rows are read; 0 of none yet.
    generation: u64,
    /// How often it was gone to a generation, or to one again.
    entry: u64,
    /// Whether a cell is set in the node's row before it is read.
    takes_over: bool,
    tell: mpsc::Sender<Read>,
    read: mpsc::Receiver<Read>,
    rows: JoinSet<()>,
    /// How many cells of the node's own row are known to be its own.
    own: Arc<AtomicU64>,
    _foundings: JoinSet<()>,
}

impl Following {
    /// Follows the founding's row behind so many cells.
    pub(super) fn of(engine: Arc<dyn Engine>, foundings: u64, takes_over: bool) -> Following {
        let (tell, read) = mpsc::channel(super::ROOM);
        let mut tasks = JoinSet::new();
        tasks.spawn(follow_foundings(
            Arc::clone(&engine),
            foundings + 1,
            tell.clone(),
        ));
        Following {
            engine,
            generation: 0,
            entry: 0,
            takes_over,
            tell,
            read,
            rows: JoinSet::new(),
            own: Arc::default(),
            _foundings: tasks,
        }
    }

    /// Whether it was gone to what the node reads now.
    pub(super) fn is_at<W>(&self, node: &Node<W>) -> bool {
        self.generation == node.generation().number && node.wants_own_row().is_none()
    }

    /// Whether cells that were read since an entry are those that the node reads now.
    pub(super) fn is_of_now<W>(&self, entry: u64, node: &Node<W>) -> bool {
        self.entry == entry && self.is_at(node)
    }

    pub(super) async fn next(&mut self) -> Read {
        let read = self.read.recv().await;
        read.expect("this side may tell too, so it is never closed")
    }

    pub(super) fn try_next(&mut self) -> Option<Read> {
        self.read.try_recv().ok()
    }

    /// Goes on to the generation of a node: reads its own row, and those of the others as far as they go, and follows them from there.
    pub(super) async fn go_to<W>(&mut self, node: &mut Node<W>, writer: &str) -> Result<(), Stop> {
        self.rows.abort_all();
        self.entry += 1;
        let generation = node.generation().clone();
        let own = match (node.wants_own_row(), node.member()) {
            (Some(chain), Some(member)) => {
                self.take_over(&generation, member, writer).await?;
                Some(self.read_own(chain).await?)
            }
            _ => None,
        };
        let (mut followers, mut there) = (Vec::new(), vec![0; generation.nodes.len()]);
        let mut read = Vec::new();
        for member in node.followed() {
            let chain = generation.chain(member);
            let mut follower = Follower::of(Arc::clone(&self.engine), chain).await?;
            read.push((member, follower.there().await?));
            there[member as usize - 1] = follower.chain().next() - 1;
            followers.push((member, follower));
        }
        if let Some((chain, cells)) = own {
            check_ends(&cells, &there)?;
            self.watch(&generation, chain.clone(), writer);
            node.enter(chain, &cells)?;
        }
        for (member, cells) in read {
            for cell in cells {
                node.put_cell(member, cell)?;
            }
        }
        for (member, follower) in followers {
            let (entry, tell) = (self.entry, self.tell.clone());
            self.rows.spawn(follow(entry, member, follower, tell));
        }
        self.generation = generation.number;
        Ok(())
    }

    /// Sets a cell in the node's row, where it is to be taken over from another process.
    async fn take_over(
        &self,
        generation: &Generation,
        member: u32,
        writer: &str,
    ) -> Result<(), Stop> {
        if !self.takes_over {
            return Ok(());
        }
        let (row, limit) = (generation.row(member), generation.sent_limit());
        take_over(&*self.engine, row, writer, limit).await
    }

    async fn read_own(&self, mut chain: Chain) -> Result<(Chain, Vec<Cell>), Stop> {
        let texts = sure_get(&*self.engine, chain.row(), 1).await?;
        let cells = chain.take_all(&texts);
        Ok((chain, cells.map_err(|lost| Stop::Lost(lost.to_string()))?))
    }

    fn watch(&mut self, generation: &Generation, chain: Chain, writer: &str) {
        self.own = Arc::new(AtomicU64::new(chain.next() - 1));
        let watched = Watched {
            engine: Arc::clone(&self.engine),
            generation: generation.number,
            row: chain.row().clone(),
            writer: writer.to_owned(),
            own: Arc::clone(&self.own),
        };
        self.rows.spawn(watched.watch(self.tell.clone()));
    }

    /// So many cells of the node's own row, of the generation that is followed, are its own: these need not be looked at.
    pub(super) fn has_own(&self, cells: u64) {
        self.own.store(cells, Ordering::Relaxed);
    }
}

/// Gives on each cell of another member's row.
async fn follow(entry: u64, member: u32, mut follower: Follower, tell: mpsc::Sender<Read>) {
    loop {
        let read = match follower.next().await {
            Ok(cells) => Read::Cells {
                entry,
                member,
                cells,
            },
            Err(fault) => Read::Stop(fault.into()),
        };
        let is_last = matches!(read, Read::Stop(_));
        if tell.send(read).await.is_err() || is_last {
            return;
        }
    }
}

/// Gives on each cell of the founding's row, from this number on.
async fn follow_foundings(engine: Arc<dyn Engine>, mut next: u64, tell: mpsc::Sender<Read>) {
    let row = RowName::founding();
    let mut tidings = None;
    loop {
        let read = match sure_get(&*engine, &row, next).await {
            Ok(texts) => texts,
            Err(fault) => {
                let _ = tell.send(Read::Stop(fault.into())).await;
                return;
            }
        };
        next += read.len() as u64;
        if !read.is_empty() && tell.send(Read::Foundings(read)).await.is_err() {
            return;
        }
        if tidings.is_none() {
            tidings = engine.follow(&row).await.ok();
        }
        match &mut tidings {
            Some(tidings) => drop(tidings.wait(next, SWEEP).await),
            None => tokio::time::sleep(SWEEP).await,
        }
    }
}

/// The node's own row, where another process may set cells too.
struct Watched {
    engine: Arc<dyn Engine>,
    generation: u64,
    row: RowName,
    writer: String,
    own: Arc<AtomicU64>,
}

impl Watched {
    /// Looks from time to time whether the row has a cell that another process set: a process that is asked nothing meets no cell that is taken, and
    /// would show for good what was so once. The first such cell is told again and again, until it was heard.
    async fn watch(self, tell: mpsc::Sender<Read>) {
        loop {
            tokio::time::sleep(SWEEP).await;
            let read = match self.first_of_others().await {
                Ok(None) | Err(Fault::Silent(_)) => continue,
                Ok(Some(read)) => read,
                Err(fault) => Read::Stop(fault.into()),
            };
            let is_last = matches!(read, Read::Stop(_));
            if tell.send(read).await.is_err() || is_last {
                return;
            }
        }
    }

    async fn first_of_others(&self) -> Result<Option<Read>, Fault> {
        let next = self.own.load(Ordering::Relaxed) + 1;
        let texts = self.engine.get(&self.row, next).await?;
        let is_own = |text: &Bytes| {
            let cell: Option<Cell> = serde_json::from_slice(text).ok();
            cell.is_some_and(|cell| cell.writer == self.writer)
        };
        let mut of_others = (next..).zip(texts).filter(|(_, text)| !is_own(text));
        Ok(of_others.next().map(|(number, text)| Read::Own {
            generation: self.generation,
            number,
            text,
        }))
    }
}
