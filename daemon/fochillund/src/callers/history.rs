//! What was delivered: the policy as commands, and the history, of which each record may be told as it comes.
use super::asking::Wanted;
use super::replies::Told;
use super::requests::{from_of, wanted_of};
use super::{Asker, Callers};
use crate::access::Caller;
use crate::decision_log::View;
use crate::process::{Dumped, Question};
use hyper::body::Sender;
use hyper::{Body, Request};
use serde_json::json;
use std::sync::Arc;
use std::time::Duration;
use tokio::sync::OwnedSemaphorePermit;

/// After so long a stream of which nothing else is to be told says that it is there.
pub(super) const HEARTBEAT: Duration = Duration::from_secs(15);

/// By which header a reader that comes back says what it read at last.
const LAST_EVENT: &str = "last-event-id";

/// Where a reader of the history is.
#[derive(Clone, Copy, Debug, PartialEq, Eq)]
struct At {
    generation: u64,
    next: u64,
}

/// What is told of the history.
struct Piece {
    events: String,
    /// Where the reader is then; none where it can be told no more.
    at: Option<At>,
}

impl Callers {
    pub(super) async fn answer_dump(&self, request: &Request<Body>) -> Result<Told, Told> {
        let dumped = self.dumped(wanted_of(request.uri())?).await?;
        Ok(Told::Dump {
            at: dumped.at,
            commands: dumped.commands,
        })
    }

    /// The policy that is shown, once that is far enough.
    pub(super) async fn dumped(&self, wanted: Wanted) -> Result<Dumped, Told> {
        let mut at_least = wanted.at_least;
        if wanted.view == Some(View::Ordered) {
            at_least = at_least.max(Some(self.barrier().await?));
        }
        if at_least.is_some() {
            self.shown(Vec::new(), at_least).await?;
        }
        match self.ask(Question::Dump).await? {
            Some(dumped) => Ok(dumped),
            None => Err(Told::Behind(self.state().await?)),
        }
    }

    /// What the founding file of the generation that is shown lists.
    pub(super) async fn answer_founding(&self) -> Result<Told, Told> {
        let Some((generation, file)) = self.ask(Question::Founding).await? else {
            return Err(Told::Behind(self.state().await?));
        };
        let table = crate::founding::parse(&file).unwrap_or_default();
        let list = |key: &str| match table.get(key) {
            Some(list) => serde_json::to_value(list).expect("it is JSON"),
            None => json!([]),
        };
        let hierarchy = table.get("hierarchy").and_then(|it| it.as_str());
        Ok(Told::json(&json!({
            "generation": generation,
            "hierarchy": hierarchy.unwrap_or("general"),
            "operations": list("operations"),
            "objects": list("objects"),
            "permissions": list("permissions"),
        })))
    }

    /// The last messages of the members, as far as they were read here.
    pub(super) async fn answer_messages(&self) -> Result<Told, Told> {
        let (generation, messages) = self.ask(Question::Messages).await?;
        let told = json!({ "generation": generation, "messages": messages });
        Ok(Told::json(&told))
    }

    pub(super) async fn answer_records(&self, request: &Request<Body>) -> Result<Told, Told> {
        let (generation, from) = from_of(request.uri())?;
        match self.records(generation, from).await? {
            (generation, Some(records)) => Ok(Told::Records {
                generation,
                records,
            }),
            (generation, None) => Err(Told::NotKept(generation)),
        }
    }

    async fn records(
        &self,
        generation: Option<u64>,
        from: u64,
    ) -> Result<(u64, Option<Vec<String>>), Told> {
        self.ask(|waiter| Question::Records {
            generation,
            from,
            waiter,
        })
        .await
    }

    /// Tells the history as server-sent events, from a record on, and what comes later as it comes.
    pub(super) async fn answer_history(
        self: &Arc<Callers>,
        asker: &Asker,
        request: &Request<Body>,
    ) -> Result<Told, Told> {
        let (generation, mut next) = from_of(request.uri())?;
        let mut generation =
            generation.unwrap_or_else(|| self.asking.progress.borrow().generation.max(1));
        if let Some(last) = request.headers().get(LAST_EVENT) {
            let last = last.to_str().ok().and_then(read_event);
            let (of, number) =
                last.ok_or_else(|| Told::BadRequest("no such event was told".to_owned()))?;
            (generation, next) = (of, number.saturating_add(1));
        }
        if let (generation, None) = self.records(Some(generation), next).await? {
            return Err(Told::NotKept(generation));
        }
        let place = self.stream_place()?;
        let (sender, body) = Body::channel();
        let callers = Arc::clone(self);
        let caller = Arc::clone(&asker.caller);
        let at = At { generation, next };
        tokio::spawn(callers.tell_history(caller, at, sender, place));
        Ok(Told::Stream(body))
    }

    /// Room for a stream.
    pub(super) fn stream_place(&self) -> Result<OwnedSemaphorePermit, Told> {
        let place = Arc::clone(&self.streams).try_acquire_owned();
        place.map_err(|_| Told::TooMuch(Duration::from_secs(1)))
    }

    async fn tell_history(
        self: Arc<Callers>,
        caller: Arc<Caller>,
        at: At,
        mut sender: Sender,
        _place: OwnedSemaphorePermit,
    ) {
        tokio::select! {
            () = self.tell_pieces(at, &mut sender) => {}
            // Who is known by no file stays who it is.
            () = is_removed(&self, &caller) => {}
        }
    }

    /// Returns once the reader is gone, or can be told no more.
    async fn tell_pieces(&self, mut at: At, sender: &mut Sender) {
        let mut progress = self.asking.progress.clone();
        loop {
            progress.borrow_and_update();
            let Some(piece) = self.piece(at).await else {
                return;
            };
            let is_new = !piece.events.is_empty();
            if is_new && sender.send_data(piece.events.into()).await.is_err() {
                return;
            }
            match piece.at {
                Some(next) => at = next,
                None => return,
            }
            if is_new {
                continue;
            }
            match tokio::time::timeout(HEARTBEAT, progress.changed()).await {
                Ok(Ok(())) => {}
                Ok(Err(_)) => return,
                Err(_) => {
                    let there = sender.send_data(":\n\n".into()).await;
                    if there.is_err() {
                        return;
                    }
                }
            }
        }
    }

    /// The next records, or that their generation is over; nothing where there is none yet.
    async fn piece(&self, at: At) -> Option<Piece> {
        let progress = *self.asking.progress.borrow();
        let (generation, records) = self.records(Some(at.generation), at.next).await.ok()?;
        let is_over = generation < progress.generation;
        let is_void = is_over && Some(generation) > progress.last;
        // One that was void has no records, and one that is forgotten can't be told.
        let records = records.or_else(|| is_void.then(Vec::new))?;
        if records.is_empty() && is_over {
            let at = At {
                generation: generation + 1,
                next: 1,
            };
            let events = format!(
                "event: generation\ndata: {{\"generation\":{}}}\n\n",
                at.generation
            );
            return Some(Piece {
                events,
                at: Some(at),
            });
        }
        let numbered = (at.next..).zip(&records);
        let events = numbered.map(|(number, record)| {
            format!("event: record\nid: {generation}.{number}\ndata: {record}\n\n")
        });
        Some(Piece {
            events: events.collect(),
            at: Some(At {
                generation,
                next: at.next + records.len() as u64,
            }),
        })
    }
}

/// The generation and the number of a record's event.
fn read_event(text: &str) -> Option<(u64, u64)> {
    let (generation, number) = text.split_once('.')?;
    Some((generation.parse().ok()?, number.parse().ok()?))
}

/// Returns once a caller may read no more.
pub(super) async fn is_removed(callers: &Callers, caller: &Arc<Caller>) {
    match &callers.access {
        Some(access) if !caller.is_unlisted() => access.is_removed(caller).await,
        _ => std::future::pending().await,
    }
}
