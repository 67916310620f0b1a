//! Questions by what the process has delivered, some of which wait until that is far enough.
use crate::node::{Node, Query, Shown, ShownAt};
use tokio::sync::oneshot;

/// Questions that are answered together, and from where on they may be.
#[derive(Debug)]
pub(crate) struct AskedQueries {
    pub(crate) queries: Vec<Query>,
    /// What has to be delivered before they are answered: as an answer to a change told it.
    pub(crate) at_least: Option<ShownAt>,
}

/// Who waits for an answer, and for what.
pub(super) struct Reads {
    waiting: Vec<(AskedQueries, oneshot::Sender<Shown>)>,
}

impl Reads {
    pub(super) fn new() -> Reads {
        Reads {
            waiting: Vec::new(),
        }
    }

    pub(super) fn ask<W>(
        &mut self,
        node: &mut Node<W>,
        asked: AskedQueries,
        waiter: oneshot::Sender<Shown>,
    ) {
        match answer(node, &asked) {
            Some(shown) => {
                let _ = waiter.send(shown);
            }
            None => self.waiting.push((asked, waiter)),
        }
    }

    /// Answers what can be answered now, and forgets who waits no longer.
    pub(super) fn look<W>(&mut self, node: &mut Node<W>) {
        if self.waiting.is_empty() {
            return;
        }
        for (asked, waiter) in std::mem::take(&mut self.waiting) {
            if !waiter.is_closed() {
                self.ask(node, asked, waiter);
            }
        }
    }
}

fn answer<W>(node: &mut Node<W>, asked: &AskedQueries) -> Option<Shown> {
    let shown = node.shown_at()?;
    let is_there = asked.at_least.is_none_or(|wanted| shown >= wanted);
    is_there.then(|| node.query(&asked.queries))?
}
