//! What a member does for its group's next generation by itself: it proposes one where its row is nearly full, or where a member is silent for too long,
//! and seals the rows of those that do not.
use super::sealing::{seal_row, OwnRow};
use super::{propose, serves, Options};
use crate::engine::{Condition, Heard};
use crate::node::{Node, NodeFault, Phase};
use crate::propose::has_room;
use crate::stop::Stop;
use rows::{Fault, Told};
use std::collections::{BTreeSet, HashMap};
use std::sync::Arc;
use std::time::{Duration, Instant};

/// How often silent members are looked for, where they are left out.
const LOOK: Duration = Duration::from_millis(20);

/// How long ago the engine has answered at most, where others are held for silent.
const HEARD: Duration = Duration::from_secs(1);

pub(super) struct Leaving {
    engine: Arc<Heard>,
    writer: String,
    node: Option<String>,
    grace: Option<Duration>,
    margin: u64,
    /// The generation whose successor was proposed.
    proposed: u64,
    /// Since when a message of a member is missing.
    silent: HashMap<u32, Instant>,
    /// Since when the own row is sealed, and the rows of others that this process seals.
    sealed: Option<Instant>,
    seals: BTreeSet<(u64, u32)>,
}

impl Leaving {
    pub(super) fn of(options: &Options, engine: Arc<Heard>, writer: &str) -> Leaving {
        Leaving {
            engine,
            writer: writer.to_owned(),
            node: options.node.clone(),
            grace: options.grace,
            margin: options.margin,
            proposed: 0,
            silent: HashMap::new(),
            sealed: None,
            seals: BTreeSet::new(),
        }
    }

    /// Returns when it is time to look again.
    pub(super) async fn wait(&self) {
        match self.grace {
            Some(_) => tokio::time::sleep(LOOK).await,
            None => std::future::pending().await,
        }
    }

    /// Looks what is to be done, and begins it.
    pub(super) fn look<W>(&mut self, node: &mut Node<W>) -> Result<(), Stop> {
        let phase = node.phase();
        if serves(phase) {
            self.sealed = None;
            self.look_at_the_row(node)?;
            self.look_for_silent(node)?;
        }
        if phase == Phase::Ends {
            self.look_at_the_end(node);
        }
        Ok(())
    }

    fn look_at_the_row<W>(&mut self, node: &mut Node<W>) -> Result<(), NodeFault> {
        let is_low = node.cells_left().is_some_and(|left| left < self.margin);
        if is_low && self.proposed < node.generation().number {
            let nodes = node.generation().nodes.clone();
            tracing::info!("{}: the row is nearly full", self.name());
            self.propose(node, &nodes)?;
        }
        Ok(())
    }

    fn look_for_silent<W>(&mut self, node: &mut Node<W>) -> Result<(), NodeFault> {
        let Some(grace) = self.grace else {
            return Ok(());
        };
        let (waits, own) = (node.waits(), node.member());
        self.silent
            .retain(|member, _| waits.members.contains(member));
        for member in waits.members {
            self.silent.entry(member).or_insert_with(Instant::now);
        }
        let engine = self.engine.state();
        let hears = engine.condition == Condition::Answers
            && Duration::from_millis(engine.answered_ms_ago) < HEARD;
        let is_silent = |member: &u32| {
            let since = self.silent.get(member);
            since.is_some_and(|since| since.elapsed() >= grace)
        };
        let members = 1..=node.generation().members();
        let (gone, stay): (Vec<u32>, Vec<u32>) = members.partition(is_silent);
        if !hears || gone.is_empty() || own.is_none() {
            return Ok(());
        }
        if self.proposed < node.generation().number {
            let name = |member: u32| node.generation().nodes[member as usize - 1].clone();
            let nodes: Vec<String> = stay.into_iter().map(name).collect();
            let gone: Vec<String> = gone.into_iter().map(name).collect();
            tracing::info!("{}: {} is silent for too long", self.name(), gone.join(","));
            self.propose(node, &nodes)?;
        }
        Ok(())
    }

    fn name(&self) -> &str {
        self.node.as_deref().unwrap_or_default()
    }

    /// Proposes the next generation with these nodes, unless its dump would take too much of a row.
    fn propose<W>(&mut self, node: &mut Node<W>, nodes: &[String]) -> Result<(), NodeFault> {
        self.proposed = node.generation().number;
        let dump = node.dump()?;
        let fault = dump.and_then(|(before, dump)| has_room(&dump, before.sent_limit()).err());
        if let Some(fault) = fault {
            tracing::info!("{}: no generation is proposed: {fault}", self.name());
            return Ok(());
        }
        let (number, text) = node.foundings().proposal(nodes, None, &self.writer);
        let (engine, name) = (Arc::clone(&self.engine), self.name().to_owned());
        tokio::spawn(async move {
            match propose(&*engine, number, text).await {
                Ok(Told::Set) => tracing::info!("{name}: generation {number} is proposed"),
                Err(Fault::Refused(why)) => {
                    tracing::info!("{name}: an operator has to propose a generation: {why}");
                }
                told => tracing::debug!("{name}: generation {number}: {told:?}"),
            }
        });
        Ok(())
    }

    /// Seals the rows of others: of those that are left out at once, of all others after the grace.
    fn look_at_the_end<W>(&mut self, node: &mut Node<W>) {
        let Some(grace) = self.grace else {
            return;
        };
        let not_sealed = node.not_sealed();
        if not_sealed.is_empty() {
            return;
        }
        let since = *self.sealed.get_or_insert_with(Instant::now);
        let generation = node.generation();
        let next = node.foundings().nodes(generation.number + 1);
        for member in not_sealed {
            let name = &generation.nodes[member as usize - 1];
            let is_time = !next.contains(name) || since.elapsed() >= grace;
            if is_time && self.seals.insert((generation.number, member)) {
                self.seal(generation.row(member));
            }
        }
    }

    fn seal(&self, row: OwnRow) {
        let (engine, writer) = (Arc::clone(&self.engine), self.writer.clone());
        let (name, member) = (self.name().to_owned(), row.member);
        tokio::spawn(async move {
            match seal_row(&*engine, row, &writer).await {
                Ok(()) => tracing::info!("{name}: the row of member {member} is sealed"),
                Err(stop) => tracing::info!("{name}: sealing the row of member {member}: {stop}"),
            }
        });
    }
}
