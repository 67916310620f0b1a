//! Trimming the node's own rows of generations that nobody asks for any more, down to their seals.
use super::Options;
use crate::engine::Heard;
use crate::message::is_seal;
use crate::node::Node;
use rows::cell::Cell;
use rows::{sure_get, sure_trim, Fault, RowName};
use std::sync::Arc;

pub(super) struct Trimming {
    engine: Arc<Heard>,
    /// None of one whose rows are kept.
    node: Option<String>,
    /// Up to which generation rows were trimmed.
    trimmed: u64,
}

impl Trimming {
    pub(super) fn of(options: &Options, engine: Arc<Heard>) -> Trimming {
        let node = options.node.clone();
        Trimming {
            engine,
            node: node.filter(|_| !options.keeps_rows),
            trimmed: 0,
        }
    }

    /// Once a generation has begun, rows of those before the last one that was not void are read by nobody: who is made anew begins with that one.
    pub(super) fn look<W>(&mut self, node: &Node<W>) {
        let Some(name) = self.node.as_deref() else {
            return;
        };
        let last = node.last().filter(|_| node.has_begun()).unwrap_or(0);
        for generation in self.trimmed + 1..last {
            self.trimmed = generation;
            if node
                .foundings()
                .nodes(generation)
                .iter()
                .any(|it| it == name)
            {
                let row = RowName::of_node(name, generation).expect("nodes have names");
                let engine = Arc::clone(&self.engine);
                tokio::spawn(async move {
                    if let Err(fault) = trim(&engine, &row).await {
                        tracing::info!("{row} is not trimmed: {fault}");
                    }
                });
            }
        }
    }
}

async fn trim(engine: &Heard, row: &RowName) -> Result<(), Fault> {
    let cells = match sure_get(engine, row, 1).await {
        Err(Fault::Trimmed(_)) => return Ok(()),
        told => told?,
    };
    let last: Option<Cell> = cells.last().and_then(|it| serde_json::from_slice(it).ok());
    match last.filter(|cell| is_seal(cell.message.get())) {
        Some(seal) => sure_trim(engine, row, seal.number).await,
        None => Ok(()),
    }
}
