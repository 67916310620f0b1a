//! The decision log as it comes.
use super::history::{is_removed, HEARTBEAT};
use super::replies::Told;
use super::{Asker, Callers};
use crate::access::{Caller, Scope};
use hyper::body::Sender;
use hyper::Body;
use std::sync::Arc;
use tokio::sync::broadcast::error::RecvError;
use tokio::sync::broadcast::Receiver;
use tokio::sync::OwnedSemaphorePermit;

impl Callers {
    /// Tells the last lines of the decision log as server-sent events, and what comes later as it comes. It tells who asked what, so it takes who may
    /// review the policy too.
    pub(super) fn answer_decisions(self: &Arc<Callers>, asker: &Asker) -> Result<Told, Told> {
        if !asker.caller.may(Scope::Review) {
            return Err(Told::OutOfScope(Scope::Review));
        }
        let log = self.log.as_ref().ok_or(Told::NoLog)?;
        let place = self.stream_place()?;
        let (last, lines) = log.follow();
        let (sender, body) = Body::channel();
        let (callers, caller) = (Arc::clone(self), Arc::clone(&asker.caller));
        tokio::spawn(tell(callers, caller, last, lines, sender, place));
        Ok(Told::Stream(body))
    }
}

async fn tell(
    callers: Arc<Callers>,
    caller: Arc<Caller>,
    last: Vec<Arc<str>>,
    lines: Receiver<Arc<str>>,
    mut sender: Sender,
    _place: OwnedSemaphorePermit,
) {
    tokio::select! {
        () = tell_lines(last, lines, &mut sender) => {}
        () = is_removed(&callers, &caller) => {}
    }
}

/// Returns once the reader is gone.
async fn tell_lines(last: Vec<Arc<str>>, mut lines: Receiver<Arc<str>>, sender: &mut Sender) {
    // A heartbeat at once, so that a reader knows that the log is there.
    let events: String = last.iter().map(|line| event(line)).collect();
    let mut next = format!(":\n\n{events}");
    loop {
        if sender.send_data(next.into()).await.is_err() {
            return;
        }
        next = match tokio::time::timeout(HEARTBEAT, lines.recv()).await {
            Ok(Ok(line)) => event(&line),
            // A reader that is too slow is told how many lines it was not told.
            Ok(Err(RecvError::Lagged(lines))) => {
                format!("event: passed\ndata: {{\"lines\":{lines}}}\n\n")
            }
            Ok(Err(RecvError::Closed)) => return,
            Err(_) => ":\n\n".to_owned(),
        };
    }
}

fn event(line: &str) -> String {
    format!("event: decision\ndata: {line}\n\n")
}
