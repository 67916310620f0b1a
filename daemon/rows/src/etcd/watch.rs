//! Tidings of a row, by a watch of its keys.
//!
//! A watch tells what is set from now on, with the text of each cell: etcd tells it once a majority has synced it, as it would to a get. Where it
//! ends another one is made, and that is a tiding by itself: what was set between the two is asked for then. So no place is kept from which to
//! watch, none can be compacted away, and a watch never has to tell what is old.
use super::failure::Failure;
use super::gateway::{body_of, Gateway};
use super::keys::Keys;
use super::messages::{Event, Happened, Line, Watch, Watched, WATCH};
use crate::arrivals::Arrivals;
use crate::engine::{Fault, Tidings};
use crate::name::RowName;
use async_trait::async_trait;
use bytes::{Bytes, BytesMut};
use hyper::body::{to_bytes, HttpBody};
use hyper::{Body, Response, StatusCode};
use std::sync::Arc;
use std::time::Duration;
use tokio::task::JoinSet;
use tokio::time::{sleep, timeout};

/// A watch that told nothing for so long is made anew: its member may have lost the others.
const LONGEST: Duration = Duration::from_secs(60);

const FIRST_PAUSE: Duration = Duration::from_millis(50);
const LONGEST_PAUSE: Duration = Duration::from_secs(2);

/// Tells what the watch tells.
pub(super) struct Watching {
    arrivals: Arc<Arrivals>,
    /// What reads the watch ends with this.
    _reading: JoinSet<()>,
}

impl Watching {
    /// Of the cells of a row. Where etcd is silent, it tells once it speaks.
    ///
    /// # Errors
    /// `Refused`, where it may not be told.
    pub(super) async fn of(row: Row) -> Result<Watching, Fault> {
        let lines = match row.watch().await {
            Err(Failure::Denied(why)) => return Err(Fault::Refused(why)),
            begun => begun.ok(),
        };
        let arrivals = Arc::new(Arrivals::default());
        let mut reading = JoinSet::new();
        reading.spawn(row.read_on(lines, Arc::clone(&arrivals)));
        Ok(Watching {
            arrivals,
            _reading: reading,
        })
    }
}

#[async_trait]
impl Tidings for Watching {
    async fn wait(&mut self, next: u64, longest: Duration) -> Vec<Bytes> {
        self.arrivals.wait(next, longest).await
    }
}

/// What is watched.
pub(super) struct Row {
    pub(super) gateway: Arc<Gateway>,
    /// The number of the cluster.
    pub(super) cluster: u64,
    pub(super) keys: Keys,
    pub(super) name: RowName,
}

impl Row {
    /// Tells each line of a watch, and of the next one where it ends.
    async fn read_on(self, mut lines: Option<Lines>, arrivals: Arc<Arrivals>) {
        let mut pause = FIRST_PAUSE;
        loop {
            if let Some(mut lines) = lines {
                while let Ok(happened) = self.next(&mut lines).await {
                    pause = FIRST_PAUSE;
                    match self.cells_of(happened) {
                        Some(come) => arrivals.put(come),
                        None => arrivals.may_be_more(),
                    }
                }
            }
            sleep(pause).await;
            pause = LONGEST_PAUSE.min(pause * 2);
            lines = self.watch().await.ok();
            if lines.is_some() {
                arrivals.may_be_more();
            }
        }
    }

    /// The cells that were set; none where something else happened.
    fn cells_of(&self, happened: Happened) -> Option<Vec<(u64, Bytes)>> {
        let cell = |event: Event| {
            let number = self.keys.number(&self.name, &event.kv.key)?;
            let is_set = event.kv.create_revision > 0;
            is_set.then_some((number, event.kv.value))
        };
        let is_here = happened.header.cluster_id == self.cluster;
        let cells = happened.events.into_iter().map(cell).collect();
        is_here.then_some(cells).flatten()
    }

    /// What happens next. A watch ends where another member is asked: this one may be silent for good.
    async fn next(&self, lines: &mut Lines) -> Result<Happened, Failure> {
        let place = lines.place;
        tokio::select! {
            happened = lines.next() => happened,
            () = self.gateway.is_turned_from(place) => {
                Err(Failure::Lost("another member is asked".to_owned()))
            }
        }
    }

    /// Begins to watch: all that is set from the return on is told.
    async fn watch(&self) -> Result<Lines, Failure> {
        let place = self.gateway.place();
        let create_request = Watched {
            key: self.keys.cell(&self.name, 0).into(),
            range_end: self.keys.end(&self.name).into(),
        };
        let request = body_of(&Watch { create_request });
        let begun = self.gateway.with_token(place, |token| {
            let sent = self.gateway.send(place, WATCH, request.clone(), token);
            self.gateway
                .in_time(async { Lines::of(sent.await?, place).await })
        });
        let begun = begun.await;
        match &begun {
            Err(failure) if failure.is_of_the_member() => self.gateway.turn_from(place),
            _ => {}
        }
        begun
    }
}

/// The lines of a watch.
struct Lines {
    /// Of which member.
    place: usize,
    body: Body,
    /// What was read of the next line.
    read: BytesMut,
}

impl Lines {
    /// Behind the first one, which tells that the watch has begun.
    async fn of(mut response: Response<Body>, place: usize) -> Result<Lines, Failure> {
        let status = response.status();
        if status != StatusCode::OK {
            let body = to_bytes(response.body_mut()).await.unwrap_or_default();
            return Err(Failure::of_reply(status, &body));
        }
        let mut lines = Lines {
            place,
            body: response.into_body(),
            read: BytesMut::new(),
        };
        if lines.next().await?.created {
            return Ok(lines);
        }
        Err(Failure::Unknown("a watch that has not begun".to_owned()))
    }

    /// What happened next.
    async fn next(&mut self) -> Result<Happened, Failure> {
        let line = timeout(LONGEST, self.line()).await;
        let line = line.unwrap_or_else(|_| Err(Failure::Lost("nothing is told".to_owned())))?;
        let line: Line =
            serde_json::from_slice(&line).map_err(|error| Failure::Unknown(error.to_string()))?;
        if let Some(error) = line.error {
            return Err(Failure::of_error(error.grpc_code, &error.message));
        }
        match line.result {
            Some(happened) if happened.canceled => {
                Err(Failure::of_error(0, &happened.cancel_reason))
            }
            Some(happened) => Ok(happened),
            None => Err(Failure::Unknown("a line that is none".to_owned())),
        }
    }

    async fn line(&mut self) -> Result<Bytes, Failure> {
        loop {
            if let Some(end) = self.read.iter().position(|byte| *byte == b'\n') {
                return Ok(self.read.split_to(end + 1).freeze());
            }
            match self.body.data().await {
                Some(Ok(bytes)) => self.read.extend_from_slice(&bytes),
                Some(Err(error)) => return Err(Failure::Lost(error.to_string())),
                None => return Err(Failure::Lost("it is told no more".to_owned())),
            }
        }
    }
}
