//! A process at a node of a group, or one that only follows it: the rows, the node over them, and its callers.
mod following;
mod founded;
mod leaving;
mod lock;
mod questions;
mod reads;
mod sealing;
mod survey;
mod trimming;

pub(crate) use questions::{AskedCall, Authority, Dumped, Progress, Question};
pub(crate) use reads::AskedQueries;
pub use sealing::{seal_row, OwnRow};
pub use survey::survey;

use crate::callers::{Serving, State};
use crate::engine::{Heard, Place};
use crate::founding::NewGroup;
use crate::metrics::Metrics;
use crate::node::{Asked, NextCell, Node, NodeFault, NodeRefusal, Phase, Reply};
use crate::stop::Stop;
use following::{Following, Read};
use founded::{base_of, founded};
use leaving::Leaving;
use lock::Lock;
use rand::Rng;
use reads::Reads;
use rows::{sure_get, sure_set, Engine, Fault, RowName, Told};
use std::future::Future;
use std::panic::resume_unwind;
use std::path::PathBuf;
use std::pin::Pin;
use std::sync::Arc;
use std::time::{Duration, Instant};
use tokio::sync::{mpsc, oneshot, watch};
use tokio::task::JoinSet;
use trimming::Trimming;

/// How many questions of callers, and reads of rows, wait for their turn.
const ROOM: usize = 1024;

/// The most records that are told at once.
const MOST_RECORDS: u64 = 1000;

/// After this time a set is tried again for which the engine had no room.
const FULL_PAUSE: Duration = Duration::from_millis(500);

/// What a process is started with.
#[derive(Clone, Debug)]
pub struct Options {
    /// The folder of the process: its lock, and the rows where they are files.
    pub folder: PathBuf,
    /// Where the rows are.
    pub place: Place,
    /// The node; none of a process that only follows the group.
    pub node: Option<String>,
    /// What the group is founded with, where it is not yet. Whoever founds nothing waits until another has.
    pub new_group: Option<NewGroup>,
    /// Whether it sets a cell at once, so that each other process of this node is fenced, on whatever machine.
    pub takes_over: bool,
    /// After how long a silent member is left out by a new generation; never, where this is none.
    pub grace: Option<Duration>,
    /// Whether the node's rows of all generations are kept, and none is trimmed.
    pub keeps_rows: bool,
    /// How many cells of its row are left when a member proposes a new generation.
    pub margin: u64,
    /// Where its callers find it.
    pub socket: PathBuf,
    /// How it answers them.
    pub serving: Serving,
}

/// How many cells of its row are left when a member proposes a new generation: enough for what is on its way until the rows are sealed.
pub const MARGIN: u64 = 4096;

impl Options {
    /// By which name the process tells of itself.
    pub fn name(&self) -> &str {
        self.node.as_deref().unwrap_or("an observer")
    }
}

type Waiter = oneshot::Sender<Reply>;
type Setting = Pin<Box<dyn Future<Output = Result<WasSet, Fault>> + Send>>;

/// What became of a cell that was to be set.
struct WasSet {
    generation: u64,
    told: Told,
    commands: usize,
    took: Duration,
    /// What stands there, where it was taken.
    there: Option<bytes::Bytes>,
}

/// Runs the process until it has to end.
pub async fn run(options: Options) -> Stop {
    match start(&options).await {
        Ok(stop) | Err(stop) => stop,
    }
}

async fn start(options: &Options) -> Result<Stop, Stop> {
    let lock = match &options.node {
        Some(node) => Some(
            Lock::take(&options.folder, node)
                .await
                .map_err(Stop::Lock)?,
        ),
        None => None,
    };
    let _lock = lock;
    let began = Instant::now();
    let engine = Arc::new(Heard::of(opened(options).await?));
    let mut process = Process::of(options, Arc::clone(&engine)).await?;
    process.follow_all().await?;
    let cells = process.own_cells();
    let (questions, asked) = mpsc::channel(ROOM);
    let asking = crate::callers::Asking {
        questions,
        progress: process.progress.subscribe(),
        engine,
        metrics: Arc::clone(&process.metrics),
    };
    crate::callers::serve(options, asking).await?;
    tracing::info!(
        "{} is up: {} (process {}, generation {}, {} cells, {} ms)",
        options.name(),
        options.socket.display(),
        std::process::id(),
        process.node.generation().number,
        cells,
        began.elapsed().as_millis()
    );
    Ok(go_on(process, asked).await)
}

/// Lets the process go on as a task, and ends it with this: the future that a runtime blocks on is woken by a call of the kernel each time, also by
/// what runs in the same thread.
async fn go_on(process: Process, asked: mpsc::Receiver<Question>) -> Stop {
    let mut running = JoinSet::new();
    running.spawn(process.go_on(asked));
    match running.join_next().await.expect("it was spawned") {
        Ok(stop) => stop,
        Err(panicked) => resume_unwind(panicked.into_panic()),
    }
}

/// The engine, once it answers: it may be started at the same time.
async fn opened(options: &Options) -> Result<Arc<dyn Engine>, Fault> {
    loop {
        match options.place.open(&options.folder).await {
            Err(Fault::Silent(why)) => tracing::info!("{}: the rows: {why}", options.name()),
            told => return told,
        }
        tokio::time::sleep(FULL_PAUSE).await;
    }
}

/// A word that no other process has.
pub fn writer() -> String {
    format!("{:032x}", rand::thread_rng().gen::<u128>())
}

struct Process {
    node: Node<Waiter>,
    writer: String,
    name: Option<String>,
    engine: Arc<Heard>,
    following: Following,
    setting: Option<Setting>,
    leaving: Leaving,
    trimming: Trimming,
    reads: Reads,
    metrics: Arc<Metrics>,
    progress: watch::Sender<Progress>,
}

impl Process {
    async fn of(options: &Options, engine: Arc<Heard>) -> Result<Process, Stop> {
        let foundings = founded(&*engine, options.new_group.as_ref()).await?;
        let base = base_of(&*engine, &foundings).await?;
        let writer = writer();
        let node = Node::begin(options.node.as_deref(), &writer, foundings, base)?;
        let as_engine: Arc<dyn Engine> = Arc::clone(&engine) as _;
        let latest = node.foundings().latest();
        let following = Following::of(as_engine, latest, options.takes_over);
        Ok(Process {
            leaving: Leaving::of(options, Arc::clone(&engine), &writer),
            trimming: Trimming::of(options, Arc::clone(&engine)),
            node,
            writer,
            name: options.node.clone(),
            engine,
            following,
            setting: None,
            reads: Reads::new(),
            metrics: Arc::new(Metrics::new()),
            progress: watch::channel(Progress::default()).0,
        })
    }

    /// Reads the rows of the generation that goes on, and of each that it leads to.
    async fn follow_all(&mut self) -> Result<(), Stop> {
        while !self.following.is_at(&self.node) {
            self.following.go_to(&mut self.node, &self.writer).await?;
            self.node.turn()?;
        }
        Ok(())
    }

    async fn go_on(mut self, mut asked: mpsc::Receiver<Question>) -> Stop {
        loop {
            if let Err(stop) = self.step(&mut asked).await {
                return stop;
            }
        }
    }

    /// Begins to set what is to be set, tells what is to be told, and waits for the next event.
    async fn step(&mut self, asked: &mut mpsc::Receiver<Question>) -> Result<(), Stop> {
        if self.setting.is_some() {
            self.node.turn()?;
        } else {
            // Who is about to ask goes into the same message.
            tokio::task::yield_now().await;
            self.take_questions(asked);
            self.setting = self.begin()?;
            // It is on its way before callers are told, whose replies take longer.
            tokio::select! {
                biased;
                told = ended(&mut self.setting) => return self.take_set(told?),
                () = std::future::ready(()) => {}
            }
            // What it acknowledges is taken meanwhile.
            self.node.turn()?;
        }
        for (waiter, reply) in self.node.take_told() {
            // Who waits no longer asks again.
            let _ = waiter.send(reply);
        }
        self.reads.look(&mut self.node);
        self.tell_progress();
        if !self.following.is_at(&self.node) {
            // There may be something to be set there.
            return self.follow_all().await;
        }
        self.trimming.look(&self.node);
        self.leaving.look(&mut self.node)?;
        tokio::select! {
            biased;
            told = ended(&mut self.setting) => self.take_set(told?),
            read = self.following.next() => {
                self.take_read(read)?;
                while let Some(read) = self.following.try_next() {
                    self.take_read(read)?;
                }
                Ok(())
            }
            Some(question) = asked.recv() => {
                self.take_question(question);
                self.take_questions(asked);
                Ok(())
            }
            () = self.leaving.wait() => Ok(()),
        }
    }

    fn begin(&mut self) -> Result<Option<Setting>, Stop> {
        let next = self.node.next_cell()?;
        Ok(next.map(|next| {
            let engine = Arc::clone(&self.engine);
            Box::pin(async move { set(&*engine, next).await }) as Setting
        }))
    }

    /// Tells who follows the history how far it is.
    fn tell_progress(&mut self) {
        let generation = self.node.generation().number;
        let records = self.node.history_length(generation).unwrap_or(0);
        let now = Progress {
            last: self.node.last(),
            generation,
            records,
        };
        self.progress.send_if_modified(|told| {
            let is_new = *told != now;
            *told = now;
            is_new
        });
    }

    fn take_set(&mut self, was: WasSet) -> Result<(), Stop> {
        self.setting = None;
        self.metrics.was_set(was.commands, was.took);
        match (was.told, was.there) {
            (Told::Set, _) => {
                self.node.was_set(was.generation)?;
                if was.generation == self.node.generation().number {
                    let cells = self.own_cells();
                    self.following.has_own(cells);
                }
                Ok(())
            }
            (Told::Taken, Some(there)) => Ok(self.node.was_taken(was.generation, &there)?),
            _ => Err(Stop::Lost(
                "the cells of this node's row are gone".to_owned(),
            )),
        }
    }

    fn take_read(&mut self, read: Read) -> Result<(), Stop> {
        match read {
            Read::Cells {
                entry,
                member,
                cells,
            } => {
                if self.following.is_of_now(entry, &self.node) {
                    for cell in cells {
                        self.node.put_cell(member, cell)?;
                    }
                }
            }
            // While a cell is being set its own answer tells what stands there.
            Read::Own {
                generation,
                number,
                text,
            } => {
                let is_next = number == self.own_cells() + 1;
                if self.setting.is_none() && is_next {
                    self.node.was_taken(generation, &text)?;
                }
            }
            Read::Foundings(texts) => {
                for text in texts {
                    self.node.put_founding(&text)?;
                }
            }
            Read::Stop(stop) => return Err(stop),
        }
        Ok(())
    }

    /// How many cells of the node's own row of this generation are its own.
    fn own_cells(&mut self) -> u64 {
        let taken = self.node.taken();
        let own = self.node.member().map(|member| member as usize - 1);
        own.and_then(|own| taken.get(own)).copied().unwrap_or(0)
    }

    fn take_questions(&mut self, asked: &mut mpsc::Receiver<Question>) {
        while let Ok(question) = asked.try_recv() {
            self.take_question(question);
        }
    }

    fn take_question(&mut self, question: Question) {
        match question {
            Question::Call(call) => self.take_call(*call),
            Question::State(waiter) => {
                let _ = waiter.send(Box::new(self.state()));
            }
            Question::Ask(asked, waiter) => self.reads.ask(&mut self.node, asked, waiter),
            Question::Dump(waiter) => {
                let _ = waiter.send(self.dumped());
            }
            Question::Founding(waiter) => {
                let generation = self.node.shown_generation();
                let _ = waiter.send(generation.map(|it| (it.number, it.file.clone())));
            }
            Question::Messages(waiter) => {
                let generation = self.node.generation().number;
                let _ = waiter.send((generation, self.node.messages()));
            }
            Question::Records {
                generation,
                from,
                waiter,
            } => {
                let generation = generation.unwrap_or(self.node.generation().number);
                let _ = waiter.send((generation, self.records(generation, from)));
            }
        }
    }

    /// The policy that is shown, as it can be made anew.
    fn dumped(&mut self) -> Option<Dumped> {
        let at = self.node.shown_at()?;
        let (generation, commands) = self.node.dump().ok()??;
        Some(Dumped {
            at,
            founding: generation.file.clone(),
            commands,
        })
    }

    fn take_call(&mut self, asked: AskedCall) {
        let AskedCall {
            at,
            call,
            authority,
            waiter,
        } = asked;
        if authority.is_some_and(|authority| !self.may_administer(&authority)) {
            let _ = waiter.send(Err(NodeRefusal::NotPermitted));
            return;
        }
        match at {
            Some((generation, member)) => {
                let asked = Asked {
                    generation,
                    member,
                    call,
                };
                self.node.ask(asked, waiter);
            }
            None => self.node.ask_here(call, waiter),
        }
    }

    /// Whether a caller's session has, by what was delivered here, each permission that its commands need.
    fn may_administer(&mut self, authority: &Authority) -> bool {
        let shown = self.node.query(&authority.queries());
        shown.is_some_and(|shown| authority.is_given(&shown.answers))
    }

    fn records(&mut self, generation: u64, from: u64) -> Option<Vec<String>> {
        let length = self.node.history_length(generation)?;
        let to = length.min(from.saturating_add(MOST_RECORDS - 1));
        Some(self.node.records(generation, from..to + 1))
    }

    fn state(&mut self) -> State {
        let waits = self.node.waits();
        let taken = self.node.taken();
        let generation = self.node.generation().number;
        let records = self.node.history_length(generation).unwrap_or(0);
        let nodes = self.node.generation().nodes.clone();
        let waited = waits.members.iter();
        State {
            release: Some(env!("CARGO_PKG_VERSION").to_owned()),
            generation,
            phase: self.node.phase(),
            member: self.node.member(),
            node: self.name.clone(),
            waits_for: waited.map(|at| nodes[*at as usize - 1].clone()).collect(),
            nodes,
            process: std::process::id(),
            taken,
            cells_left: self.node.cells_left(),
            shown: self.node.shown_at(),
            records,
            sets: waits.row,
            queued: waits.queued,
            sent: waits.sent,
            engine: self.engine.state(),
        }
    }
}

/// Sets a cell. Where the engine is full nothing is set, and the same text is tried until somebody has made room.
async fn set(engine: &dyn Engine, next: NextCell) -> Result<WasSet, Fault> {
    let (row, number, began) = (&next.row, next.number, Instant::now());
    let told = loop {
        match sure_set(engine, row, number, std::slice::from_ref(&next.text)).await {
            Err(Fault::Full) => tokio::time::sleep(FULL_PAUSE).await,
            told => break told?,
        }
    };
    let there = match told {
        Told::Taken => sure_get(engine, row, number).await?.into_iter().next(),
        _ => None,
    };
    Ok(WasSet {
        generation: next.generation,
        told,
        commands: next.commands,
        took: began.elapsed(),
        there,
    })
}

/// Returns once what is being set is; never where nothing is.
async fn ended(setting: &mut Option<Setting>) -> Result<WasSet, Fault> {
    match setting {
        Some(setting) => setting.await,
        None => std::future::pending().await,
    }
}

/// Whether the founding's row can be written by this process, and what came of it.
async fn propose(engine: &dyn Engine, number: u64, text: bytes::Bytes) -> Result<Told, Fault> {
    let row = RowName::founding();
    sure_set(engine, &row, number, std::slice::from_ref(&text)).await
}

impl From<NodeFault> for Stop {
    fn from(fault: NodeFault) -> Stop {
        use crate::generation::CellFault;
        match fault {
            NodeFault::Founding(CellFault::Differs(fault)) => Stop::Founding(fault),
            NodeFault::Founding(CellFault::Lost(lost)) => Stop::Lost(lost.to_string()),
            NodeFault::Member { fault, .. } => fault.into(),
        }
    }
}

/// What is done in a phase is done by who is a member in it.
fn serves(phase: Phase) -> bool {
    phase == Phase::Serves
}
