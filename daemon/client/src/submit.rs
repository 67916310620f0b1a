//! Calls with an id, which are carried out once.
use crate::asked::{id_or_new, is_id, new_id, Asked};
use crate::client::{is_unready, Client};
use crate::error::{Error, Refused, Why};
use crate::told::{records, told, Place, Record};
use crate::wire::{Fault, Reply};
use hyper::{Method, StatusCode};
use serde_json::{json, Value};
use std::time::{Duration, Instant};

const FIRST_PAUSE: Duration = Duration::from_millis(50);
const LONGEST_PAUSE: Duration = Duration::from_secs(1);

/// How often a call that stands nowhere is given another place at one process, before another one is asked.
const MOST_PLACES: usize = 4;

/// 1 to 64 commands, which are carried out together and once.
#[derive(Clone, Debug)]
pub struct Call {
    commands: Vec<Value>,
    key: String,
    /// Where it may stand.
    place: Option<Place>,
    deadline: Option<Duration>,
    request_id: String,
    /// Why it was not answered yet.
    error: Option<Error>,
}

impl Call {
    /// These commands, by an id of their own.
    pub fn of(commands: Vec<Value>) -> Call {
        Call {
            commands,
            key: new_id(),
            place: None,
            deadline: None,
            request_id: id_or_new(None),
            error: None,
        }
    }

    /// By this id: 1 to 128 visible ASCII characters.
    #[must_use]
    pub fn with_key(self, key: &str) -> Call {
        Call {
            key: key.to_owned(),
            ..self
        }
    }

    /// Where it was asked before, with the same id.
    #[must_use]
    pub fn at(self, place: Place) -> Call {
        Call {
            place: Some(place),
            ..self
        }
    }

    /// It is asked again for so long.
    #[must_use]
    pub fn with_deadline(self, deadline: Duration) -> Call {
        Call {
            deadline: Some(deadline),
            ..self
        }
    }

    /// Named so in logs.
    #[must_use]
    pub fn with_request_id(self, request_id: &str) -> Call {
        Call {
            request_id: request_id.to_owned(),
            ..self
        }
    }

    fn asked(&self, place: Place) -> Asked {
        let body = json!({
            "generation": place.generation,
            "member": place.member,
            "commands": self.commands,
        });
        let path = "/v1/commands".to_owned();
        let mut asked = Asked::of(Method::POST, path, Some(body), self.request_id.clone());
        asked.key = Some(self.key.clone());
        asked
    }

    /// Notes why a process does not answer it now, and whether it may stand there.
    fn note_unready(&mut self, answered: Result<Reply, Fault>, place: Place) {
        let stands_nowhere = match &answered {
            Ok(reply) => reply.status == StatusCode::TOO_MANY_REQUESTS,
            Err(fault) => matches!(fault, Fault::Unsent(_)),
        };
        if !stands_nowhere {
            self.place = Some(place);
        }
        let why = match answered {
            Ok(reply) => Why::Refused(Refused::of(&reply)),
            Err(fault) => fault.into(),
        };
        // Where nobody was reached at last, what was said before says more.
        if self.error.is_none() || !matches!(why, Why::Unreachable(_)) {
            self.error = Some(self.asked(place).fault(why));
        }
    }

    /// Where it is asked next at that process; none where that is nowhere.
    fn next_place(&mut self, place: Place, reply: &Reply) -> Result<Option<Place>, Error> {
        let refused = Refused::of(reply);
        let (generation, member) = (&refused.told["generation"], &refused.told["member"]);
        let (generation, member) = (generation.as_u64(), member.as_u64());
        let is_follower = refused.told["member"].is_null();
        let word = refused.word.clone().unwrap_or_default();
        let error = self.asked(place).fault(Why::Refused(refused));
        match (word.as_str(), self.place) {
            // Which is final: it stands nowhere.
            ("NotTaken", _) => self.place = None,
            // Another process may be that member, or know of that generation.
            ("NoGeneration" | "OtherMember", Some(_)) => {
                self.error.get_or_insert(error);
                return Ok(None);
            }
            ("OtherMember", None) if is_follower => {
                self.error.get_or_insert(error);
                return Ok(None);
            }
            ("NoGeneration" | "OtherMember" | "OldGeneration", None) => {}
            _ => return Err(error),
        }
        let member = match word.as_str() {
            "OtherMember" => member.and_then(|it| u32::try_from(it).ok()),
            _ => Some(place.member),
        };
        let generation = match word.as_str() {
            "OtherMember" => Some(place.generation),
            _ => generation,
        };
        match (generation, member) {
            (Some(generation), Some(member)) => Ok(Some(Place { generation, member })),
            _ => Err(error),
        }
    }
}

/// Asks a call until it is answered, or its time is over.
pub(crate) async fn submit(client: &Client, mut call: Call) -> Result<Vec<Record>, Error> {
    let told = submit_until(client, &mut call).await;
    told.map_err(|error| Error {
        key: Some(call.key),
        place: call.place,
        ..error
    })
}

async fn submit_until(client: &Client, call: &mut Call) -> Result<Vec<Record>, Error> {
    let none = |why: &str| Error::of(Why::NotAsked(why.to_owned()), &call.request_id);
    if !is_id(&call.key) {
        return Err(none("an id has 1 to 128 visible ASCII characters"));
    }
    let none = none("the client has no address");
    let until = Instant::now() + call.deadline.unwrap_or(client.deadline);
    let mut pause = FIRST_PAUSE;
    loop {
        for at in client.order() {
            if let Some(records) = submit_at(client, call, at).await? {
                client.begin_with(at);
                return Ok(records);
            }
        }
        let wait = match call.error.as_ref().map(|error| &error.why) {
            Some(Why::Refused(refused)) => refused.retry_after.unwrap_or(pause),
            _ => pause,
        };
        if Instant::now() + wait > until {
            return Err(call.error.take().unwrap_or(none));
        }
        tokio::time::sleep(wait).await;
        pause = (pause * 2).min(LONGEST_PAUSE);
    }
}

/// Asks a call at one process: none where that does not answer it now.
async fn submit_at(
    client: &Client,
    call: &mut Call,
    at: usize,
) -> Result<Option<Vec<Record>>, Error> {
    for _ in 0..MOST_PLACES {
        // Of a process that was asked nothing yet: it refuses another place than its own, and tells which that is.
        let first = Place {
            generation: 1,
            member: 1,
        };
        let place = call.place.or_else(|| client.place(at)).unwrap_or(first);
        let asked = call.asked(place);
        let answered = client.ask_at(at, &asked).await?;
        if is_unready(&answered) {
            call.note_unready(answered, place);
            return Ok(None);
        }
        let reply = answered.map_err(|fault| asked.fault(fault.into()))?;
        if reply.status == StatusCode::OK {
            call.place = Some(place);
            client.found(at, place);
            let read = told(&reply, &asked)?;
            return records(read, call.commands.len(), &asked).map(Some);
        }
        match call.next_place(place, &reply)? {
            Some(place) => client.found(at, place),
            None => return Ok(None),
        }
    }
    Ok(None)
}
