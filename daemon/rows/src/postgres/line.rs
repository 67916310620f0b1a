//! Connections that are kept, and made anew where they broke.
use super::session::Session;
use super::target::Target;
use crate::engine::Fault;
use std::sync::Arc;
use tokio::sync::{Mutex, MutexGuard};

/// A connection for one request at a time.
pub(super) struct Line {
    target: Arc<Target>,
    session: Mutex<Option<Session>>,
}

/// The connection, for one request. A request that was not answered, or whose caller waits no longer, takes it along: what would still come over
/// it is for nobody.
pub(super) struct Held<'a> {
    place: MutexGuard<'a, Option<Session>>,
    pub(super) session: Session,
}

impl Line {
    pub(super) fn of(target: Arc<Target>) -> Line {
        Line {
            target,
            session: Mutex::new(None),
        }
    }

    /// # Errors
    /// `Silent` and `Refused`, where there is no connection. Nothing was asked then.
    pub(super) async fn hold(&self) -> Result<Held<'_>, Fault> {
        let mut place = self.session.lock().await;
        let session = match place.take().filter(Session::is_open) {
            Some(session) => session,
            None => self.target.connect().await?,
        };
        Ok(Held { place, session })
    }
}

impl Held<'_> {
    /// The request was answered: the connection is used again.
    pub(super) fn keep(mut self) {
        *self.place = Some(self.session);
    }
}
