//! The history as it comes, over connections that may break.
use crate::asked::{new_id, Asked};
use crate::client::Client;
use crate::error::{Error, Refused, Why};
use crate::told::{record, told, Record};
use crate::wire::{whole, Fault};
use hyper::body::HttpBody;
use hyper::client::conn::SendRequest;
use hyper::{Body, Method, StatusCode};
use serde_json::Value;
use std::collections::VecDeque;
use std::time::{Duration, Instant};

const FIRST_PAUSE: Duration = Duration::from_millis(50);
const LONGEST_PAUSE: Duration = Duration::from_secs(1);

/// A process says each fifteen seconds that a history is still told.
const SILENCE: Duration = Duration::from_secs(45);

/// A number of a record that none has.
const NO_RECORD: u64 = 1 << 52;

/// One who reads the history: each record is given once, whatever connections break.
pub struct History<'c> {
    client: &'c Client,
    generation: Option<u64>,
    next: u64,
    id: String,
    stream: Option<Stream>,
    /// What came of an event that is not whole.
    text: Vec<u8>,
    records: VecDeque<Record>,
    /// Until when it is opened again where nothing came since it broke off, and how long is waited before.
    until: Option<Instant>,
    pause: Duration,
}

/// A reply that comes piece by piece, over a connection that ends with it.
struct Stream {
    _connection: SendRequest<Body>,
    body: Body,
}

impl<'c> History<'c> {
    pub(crate) fn of(client: &'c Client, from: u64, generation: Option<u64>) -> History<'c> {
        History {
            client,
            generation,
            next: from,
            id: new_id(),
            stream: None,
            text: Vec::new(),
            records: VecDeque::new(),
            until: None,
            pause: Duration::ZERO,
        }
    }

    /// The next record, once there is one. Who comes back later begins behind its number.
    ///
    /// # Errors
    /// Where it can't be told, or for too long no process tells it.
    pub async fn next(&mut self) -> Result<Record, Error> {
        loop {
            if let Some(record) = self.records.pop_front() {
                return Ok(record);
            }
            let Some(stream) = &mut self.stream else {
                self.open().await?;
                continue;
            };
            match tokio::time::timeout(SILENCE, stream.body.data()).await {
                Ok(Some(Ok(piece))) => {
                    (self.until, self.pause) = (None, FIRST_PAUSE);
                    self.text.extend_from_slice(&piece);
                    self.take_events()?;
                }
                _ => self.stream = None,
            }
        }
    }

    fn asked(&self, path: String) -> Asked {
        Asked::of(Method::GET, path, None, self.id.clone())
    }

    /// Where no generation is named, finds the one that goes on: of one that began before the first record came a part would be passed over else.
    async fn generation(&mut self) -> Result<u64, Error> {
        if let Some(generation) = self.generation {
            return Ok(generation);
        }
        let asked = self.asked(format!("/v1/records?from={NO_RECORD}"));
        let said: Value = told(&self.client.anywhere(&asked).await?, &asked)?;
        let generation = said["generation"].as_u64();
        let generation = generation.ok_or_else(|| asked.bad("it tells no generation"))?;
        self.generation = Some(generation);
        Ok(generation)
    }

    /// Has a process tell it from here, or waits where none does now. What broke off before is told again.
    async fn open(&mut self) -> Result<(), Error> {
        let generation = self.generation().await?;
        let path = format!("/v1/history?generation={generation}&from={}", self.next);
        let asked = self.asked(path);
        if self.is_late() {
            let why = "it breaks off again and again".to_owned();
            return Err(asked.fault(Why::ReplyLost(why)));
        }
        tokio::time::sleep(self.pause).await;
        self.pause = (self.pause * 2).clamp(FIRST_PAUSE, LONGEST_PAUSE);
        let until = Instant::now() + self.client.deadline;
        self.until.get_or_insert(until);
        let mut errors = Vec::new();
        for at in self.client.order() {
            match self.open_at(at, &asked).await? {
                Ok(stream) => {
                    self.client.begin_with(at);
                    (self.stream, self.text) = (Some(stream), Vec::new());
                    return Ok(());
                }
                Err(error) => errors.push(error),
            }
        }
        let wait = self.wait_after(errors, &asked)?;
        tokio::time::sleep(wait).await;
        Ok(())
    }

    fn is_late(&self) -> bool {
        self.until.is_some_and(|until| until < Instant::now())
    }

    /// How long a process wants it to be waited, where each had an error.
    fn wait_after(&self, mut errors: Vec<Error>, asked: &Asked) -> Result<Duration, Error> {
        // One that has not begun the generation yet may tell of it later, and one that keeps it may be silent now.
        let is_gone = errors.iter().all(|error| error.status() == Some(410));
        let Some(error) = errors.pop() else {
            let why = "the client has no address".to_owned();
            return Err(asked.fault(Why::NotAsked(why)));
        };
        if is_gone || self.is_late() {
            return Err(error);
        }
        Ok(match error.why {
            Why::Refused(refused) => refused.retry_after.unwrap_or_default(),
            _ => Duration::ZERO,
        })
    }

    /// The stream of one process, or why it does not tell now. The outer error ends it.
    async fn open_at(&self, at: usize, asked: &Asked) -> Result<Result<Stream, Error>, Error> {
        let request = self.client.request(at, asked)?;
        let opened = self.client.wire.open(&self.client.addresses[at], request);
        let opened = tokio::time::timeout(SILENCE, opened).await;
        let opened = opened.unwrap_or_else(|_| Err(Fault::Lost("it takes too long".to_owned())));
        let reply = match opened {
            Ok((connection, response)) if response.status() == StatusCode::OK => {
                return Ok(Ok(Stream {
                    _connection: connection,
                    body: response.into_body(),
                }))
            }
            Ok((_connection, response)) => whole(response).await,
            Err(fault) => Err(fault),
        };
        let reply = match reply {
            Ok(reply) => reply,
            Err(fault) => return Ok(Err(asked.fault(fault.into()))),
        };
        let error = asked.fault(Why::Refused(Refused::of(&reply)));
        match reply.status.as_u16() {
            410 | 429 | 502..=504 => Ok(Err(error)),
            _ => Err(error),
        }
    }

    /// Takes the events that are whole.
    fn take_events(&mut self) -> Result<(), Error> {
        while let Some(end) = { self.text.windows(2) }.position(|it| it == b"\n\n") {
            let event: Vec<u8> = self.text.drain(..end + 2).collect();
            let event = String::from_utf8(event);
            let asked = self.asked("/v1/history".to_owned());
            let event = event.map_err(|_| asked.bad("an event is no text"))?;
            self.take_event(&event, &asked)?;
        }
        Ok(())
    }

    fn take_event(&mut self, event: &str, asked: &Asked) -> Result<(), Error> {
        let field = |name: &str| event.lines().find_map(|line| line.strip_prefix(name));
        let Some(data) = field("data: ") else {
            return Ok(());
        };
        let generation = self.generation.unwrap_or(0);
        let said: Value = serde_json::from_str(data).unwrap_or_default();
        if field("event: ") == Some("generation") {
            if said["generation"].as_u64() != Some(generation + 1) {
                return Err(asked.bad("it goes on in another generation than the next"));
            }
            (self.generation, self.next) = (Some(generation + 1), 1);
            return Ok(());
        }
        if field("id: ") != Some(&format!("{generation}.{}", self.next)) {
            return Err(asked.bad("it tells another record than the next"));
        }
        let record = record(said, generation, Some(self.next), asked)?;
        self.next += 1;
        self.records.push_back(record);
        Ok(())
    }
}
