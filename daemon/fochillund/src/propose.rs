//! Proposing a new generation: other members, another founding file, or both.
use crate::founding::{check_file, check_nodes, parse, with_members, FoundingFault};
use crate::generation::{try_founding, Foundings, TrialFault};
use crate::message::is_seal;
use crate::node::Node;
use crate::process::{seal_row, survey, writer};
use crate::row_member::MOST_COMMANDS;
use crate::stop::Stop;
use rows::cell::Cell;
use rows::{sure_get, sure_set, Engine, RowName, Told};
use std::time::{Duration, Instant};
use thiserror::Error;

/// The largest part of a row that a dump may take, as a divisor.
const PART_OF_DUMP: u64 = 4;

/// After this time it is looked again how far a generation is.
const PAUSE: Duration = Duration::from_millis(50);

/// What is wanted of a new generation.
#[derive(Clone, Debug, Default)]
pub struct Wanted {
    /// Its nodes, in order; those of the one before, where this is none.
    pub nodes: Option<Vec<String>>,
    /// Nodes that are left out of them.
    pub leave_out: Vec<String>,
    /// Nodes that are taken in behind them.
    pub take_in: Vec<String>,
    /// Its founding file, where it is to have another.
    pub file: Option<String>,
}

/// Why nothing is proposed.
#[derive(Debug, Error)]
pub enum ProposeFault {
    /// The nodes or the file found no group over rows.
    #[error(transparent)]
    Founding(#[from] FoundingFault),
    /// The founding file does not let the policy be as it is.
    #[error(transparent)]
    Trial(#[from] TrialFault),
    /// A node that is to be left out is none, or one that is taken in is there.
    #[error("{0}")]
    Node(String),
    /// The policy is too large.
    #[error("the policy takes {cells} messages, and {most} are a quarter of a row")]
    TooLarge {
        /// How many messages its dump takes.
        cells: u64,
        /// How many it may take.
        most: u64,
    },
    /// Nothing is known of the policy yet.
    #[error("the generation before has not begun")]
    NotBegun,
    /// Somebody else was first.
    #[error("another generation was proposed at the same time: look at it, and ask again")]
    Taken,
    /// The rows can't be read or set.
    #[error(transparent)]
    Stop(#[from] Stop),
}

/// A generation that was proposed.
#[derive(Clone, Debug, PartialEq, Eq)]
pub struct Proposed {
    /// Its number.
    pub generation: u64,
    /// Its nodes.
    pub nodes: Vec<String>,
    /// The generation that goes on until it begins.
    pub before: u64,
}

impl Wanted {
    fn nodes(&self, before: &[String]) -> Result<Vec<String>, ProposeFault> {
        let mut nodes = self.nodes.clone().unwrap_or_else(|| before.to_vec());
        for node in &self.leave_out {
            let at = nodes.iter().position(|named| named == node);
            let at =
                at.ok_or_else(|| ProposeFault::Node(format!("{node} is none of the nodes")))?;
            nodes.remove(at);
        }
        nodes.extend(self.take_in.iter().cloned());
        check_nodes(&nodes)?;
        Ok(nodes)
    }
}

/// Proposes a generation, where the policy as it is now lets it be, and seals the rows of the nodes that it leaves out.
///
/// # Errors
/// Why nothing is proposed; or, as `Stop`, why a row is not sealed.
pub async fn propose(engine: &dyn Engine, wanted: &Wanted) -> Result<Proposed, ProposeFault> {
    let mut node = survey(engine).await?;
    let latest = node.foundings().latest();
    let nodes = wanted.nodes(node.foundings().nodes(latest))?;
    let file = wanted.file.as_deref();
    let file = file.map(|file| with_members(file, nodes.len()));
    check(&mut node, file.as_deref())?;
    let writer = writer();
    let (generation, text) = node.foundings().proposal(&nodes, file.as_deref(), &writer);
    let row = RowName::founding();
    let told = sure_set(engine, &row, generation, std::slice::from_ref(&text)).await;
    if told.map_err(Stop::from)? != Told::Set {
        return Err(ProposeFault::Taken);
    }
    let before = node.generation().number;
    seal_left_out(engine, node.foundings(), before..=latest, &nodes, &writer).await?;
    Ok(Proposed {
        generation,
        nodes,
        before,
    })
}

/// Whether a founding file, or that of before, lets the policy be as it is, and leaves room beside it.
fn check(node: &mut Node<()>, file: Option<&str>) -> Result<(), ProposeFault> {
    let dump = node.dump().map_err(Stop::from)?;
    let (before, dump) = dump.ok_or(ProposeFault::NotBegun)?;
    if let Some(file) = file {
        check_file(&parse(file)?)?;
        try_founding(file, &dump)?;
    }
    let limit = match file {
        Some(file) => crate::founding::sent_limit_of(file),
        None => before.sent_limit(),
    };
    has_room(&dump, limit)
}

/// Whether a dump leaves room beside it in a row of so many messages.
pub(crate) fn has_room(dump: &[String], sent_limit: u64) -> Result<(), ProposeFault> {
    let (cells, most) = (
        dump.len().div_ceil(MOST_COMMANDS) as u64,
        sent_limit / PART_OF_DUMP,
    );
    match cells > most {
        true => Err(ProposeFault::TooLarge { cells, most }),
        false => Ok(()),
    }
}

/// Seals the rows of nodes that are in these generations and not among those of the next.
async fn seal_left_out(
    engine: &dyn Engine,
    foundings: &Foundings,
    generations: std::ops::RangeInclusive<u64>,
    nodes: &[String],
    writer: &str,
) -> Result<(), Stop> {
    for generation in generations {
        let named = foundings.nodes(generation);
        for node in named.iter().filter(|node| !nodes.contains(node)) {
            let row = foundings.row_of(generation, node);
            let row = row.expect("it is one of the nodes");
            seal_row(engine, row, writer).await?;
        }
    }
    Ok(())
}

/// Waits until a proposed generation has begun: its first member has told the policy. Gives the nodes whose rows of the generation before have not
/// ended, where that takes longer than this.
///
/// # Errors
/// Where the rows can't be read.
pub async fn begun(
    engine: &dyn Engine,
    proposed: &Proposed,
    longest: Duration,
) -> Result<Result<(), Vec<String>>, Stop> {
    let began = Instant::now();
    loop {
        let node = survey(engine).await?;
        let now = node.generation().number;
        if now > proposed.generation || now == proposed.generation && node.has_begun() {
            return Ok(Ok(()));
        }
        if began.elapsed() > longest {
            return Ok(Err(not_sealed(engine, node.foundings(), now).await?));
        }
        tokio::time::sleep(PAUSE).await;
    }
}

async fn not_sealed(
    engine: &dyn Engine,
    foundings: &Foundings,
    generation: u64,
) -> Result<Vec<String>, Stop> {
    let mut nodes = Vec::new();
    for node in foundings.nodes(generation) {
        let row = RowName::of_node(node, generation).expect("nodes have names");
        let texts = sure_get(engine, &row, 1).await?;
        let last: Option<Cell> = texts.last().and_then(|it| serde_json::from_slice(it).ok());
        if !last.is_some_and(|cell| is_seal(cell.message.get())) {
            nodes.push(node.clone());
        }
    }
    Ok(nodes)
}
