//! Asking a group on this machine: client lines in, a line of answer for each.
mod lines;

use crate::callers::State;
use crate::group::{node, socket_of};
use fochillun_client::{Address, Wire};
use hyper::{Body, Request, StatusCode};
use lines::{Lines, Next};
use rand::Rng;
use serde::Deserialize;
use serde_json::json;
use serde_json::value::RawValue;
use std::io;
use std::path::{Path, PathBuf};
use std::time::{Duration, Instant};
use tokio::io::AsyncBufRead;

const PAUSE: Duration = Duration::from_millis(50);

#[derive(Debug, Deserialize)]
struct Records {
    records: Vec<Record>,
}

#[derive(Debug, Deserialize)]
struct Record {
    answer: Box<RawValue>,
}

#[derive(Debug, Deserialize)]
struct Dump {
    commands: Vec<Box<RawValue>>,
}

#[derive(Debug, Deserialize)]
struct Refused {
    error: String,
    /// The generation in which it can be asked.
    #[serde(default)]
    generation: u64,
}

/// A reply: its status and its body.
type Told = (StatusCode, Vec<u8>);

/// A command's answer, or the word by which it is refused.
type Answered = Result<Box<RawValue>, String>;

/// Who the members of a generation are.
#[derive(Clone, Debug)]
struct Group {
    generation: u64,
    nodes: Vec<String>,
}

impl Group {
    fn node(&self, member: u32) -> Option<String> {
        let at = (member as usize).checked_sub(1)?;
        self.nodes.get(at).cloned()
    }
}

/// The members of a group, by their sockets in one folder.
pub struct Members {
    folder: PathBuf,
    patience: Duration,
    group: Option<Group>,
    wire: Wire,
}

impl Members {
    /// Of the group in a folder. A call is asked again by its id for so long, where its member does not answer.
    pub fn of(folder: &Path, patience: Duration) -> Members {
        Members {
            folder: folder.to_owned(),
            patience,
            group: None,
            wire: Wire::default(),
        }
    }

    /// Answers each line as `serve` does, but that a line which is no client line is refused as BadLine. Lines of one member that have come go together
    /// into one call, and none waits for another.
    ///
    /// # Errors
    /// Where lines can't be read, or a member is silent. What follows is not asked then.
    pub async fn ask_lines(
        &mut self,
        lines: impl AsyncBufRead + Unpin,
        mut tell: impl FnMut(&str),
    ) -> io::Result<()> {
        self.known(0).await?;
        let (mut lines, mut number) = (Lines::of(lines), 0);
        while let Some(next) = lines.next().await? {
            let told = match next {
                Next::Call(at, commands) => self.ask_all(at, &commands).await?,
                Next::BadLine => vec![Err("BadLine".to_owned())],
            };
            for told in told {
                number += 1;
                tell(&match told {
                    Ok(answer) => format!(r#"{{"answer":{},"line":{number}}}"#, answer.get()),
                    Err(refused) => json!({ "line": number, "refused": refused }).to_string(),
                });
            }
        }
        Ok(())
    }

    /// The group, in this generation or a later one: as that of its processes tells it which is furthest.
    async fn known(&mut self, generation: u64) -> io::Result<Group> {
        let began = Instant::now();
        loop {
            if let Some(group) = self.group.clone().filter(|it| it.generation >= generation) {
                return Ok(group);
            }
            let told = self.furthest().await;
            match told {
                Ok(group) => self.group = Some(group),
                Err(error) if began.elapsed() > self.patience => return Err(error),
                Err(_) => tokio::time::sleep(PAUSE).await,
            }
        }
    }

    async fn furthest(&mut self) -> io::Result<Group> {
        let states = self.states().await?.into_iter();
        let furthest = states.max_by_key(|(_, state)| state.generation);
        let group = furthest.map(|(_, state)| Group {
            generation: state.generation,
            nodes: state.nodes,
        });
        group.ok_or_else(nobody_answers)
    }

    /// What each process tells of itself that has its socket in the folder and answers, by its node.
    async fn states(&mut self) -> io::Result<Vec<(String, State)>> {
        let mut states = Vec::new();
        for entry in std::fs::read_dir(&self.folder)? {
            let path = entry?.path();
            let (Some("sock"), Some(name)) = (
                path.extension().and_then(|it| it.to_str()),
                path.file_stem().and_then(|it| it.to_str()),
            ) else {
                continue;
            };
            if let Ok(state) = self.state_of(name).await {
                states.push((name.to_owned(), state));
            }
        }
        Ok(states)
    }

    /// The commands that make the policy, as the process shows it that is furthest.
    ///
    /// # Errors
    /// Where none answers, or shows a policy.
    pub async fn dump(&mut self) -> io::Result<Vec<Box<RawValue>>> {
        let states = self.states().await?.into_iter();
        let shows = states.filter(|(_, state)| state.shown.is_some());
        let furthest = shows.max_by_key(|(_, state)| state.shown);
        let (node, _) = furthest.ok_or_else(nobody_answers)?;
        let request = Request::get("/v1/dump").body(Body::empty());
        let (_, body) = self
            .send(&node, request.expect("the request is right"))
            .await?;
        let dump: Dump = serde_json::from_slice(&body)?;
        Ok(dump.commands)
    }

    /// What each of these commands is answered, or the word by which it is refused.
    async fn ask_all(&mut self, at: u32, commands: &[Box<RawValue>]) -> io::Result<Vec<Answered>> {
        let (status, told) = self.ask_together(at, commands).await?;
        // One that is none has all refused, and nothing is carried out.
        if status != StatusCode::BAD_REQUEST || commands.len() == 1 {
            return Ok(told);
        }
        let mut told = Vec::new();
        for command in commands {
            let (_, alone) = self.ask_together(at, std::slice::from_ref(command)).await?;
            told.extend(alone);
        }
        Ok(told)
    }

    async fn ask_together(
        &mut self,
        at: u32,
        commands: &[Box<RawValue>],
    ) -> io::Result<(StatusCode, Vec<Answered>)> {
        let texts: Vec<&str> = commands.iter().map(|command| command.get()).collect();
        let id = format!("{:032x}", rand::thread_rng().gen::<u128>());
        let (status, body) = self
            .call(at, &id, &format!("[{}]", texts.join(",")))
            .await?;
        if status != StatusCode::OK {
            let refused: Refused = serde_json::from_slice(&body)?;
            return Ok((status, vec![Err(refused.error); commands.len()]));
        }
        let told: Records = serde_json::from_slice(&body)?;
        if told.records.len() != commands.len() {
            return Err(io::Error::other("not a record for each command"));
        }
        let answers = told.records.into_iter().map(|record| Ok(record.answer));
        Ok((status, answers.collect()))
    }

    /// Asks a call of the group's member of this number, and again by its id where the member went meanwhile, or waits. A call that its generation
    /// has ended without is asked of the member of that number in the next. Where there is no such member it is told so as of a path that is not there.
    ///
    /// # Errors
    /// Where the member did not answer for as long as is waited.
    pub async fn call(&mut self, member: u32, id: &str, commands: &str) -> io::Result<Told> {
        let began = Instant::now();
        let mut group = self.known(0).await?;
        if group.node(member).is_none() {
            // There may be more members since it was asked last.
            self.group = None;
            group = self.known(0).await?;
        }
        let mut is_first = true;
        loop {
            let Some(node) = group.node(member) else {
                let told = json!({ "error": "UnknownMember" });
                return Ok((StatusCode::NOT_FOUND, told.to_string().into_bytes()));
            };
            let body = format!(
                r#"{{"generation":{},"member":{member},"id":{},"commands":{commands}}}"#,
                group.generation,
                json!(id)
            );
            let told = self.post(&node, &body).await;
            let is_last = began.elapsed() > self.patience;
            match then_of(&told, is_first) {
                Then::Told => return told,
                Then::Again if is_last => return told,
                Then::Again => tokio::time::sleep(PAUSE).await,
                Then::In(generation) => group = self.known(generation).await?,
            }
            is_first = false;
        }
    }

    async fn post(&mut self, node: &str, body: &str) -> io::Result<Told> {
        let request = Request::post("/v1/commands").body(Body::from(body.to_owned()));
        self.send(node, request.expect("the request is right"))
            .await
    }

    /// What the member of this number tells of itself, in a group that `fochillund group` has made.
    ///
    /// # Errors
    /// Where it does not answer.
    pub async fn state(&mut self, member: u32) -> io::Result<State> {
        self.state_of(&node(member)).await
    }

    /// What the process at a node tells of itself.
    ///
    /// # Errors
    /// Where it does not answer.
    pub async fn state_of(&mut self, node: &str) -> io::Result<State> {
        let request = Request::get("/v1/status").body(Body::empty());
        let request = request.expect("the request is right");
        let (_, body) = self.send(node, request).await?;
        serde_json::from_slice(&body).map_err(io::Error::other)
    }

    /// The records of a member's history from a number on, as many as it tells at once.
    ///
    /// # Errors
    /// Where it does not answer.
    pub async fn records(&mut self, member: u32, from: u64) -> io::Result<Vec<Box<RawValue>>> {
        let told = self.records_of(&node(member), None, from).await?;
        Ok(told.records)
    }

    /// The records of a generation, or of the one that goes on, that the process at a node has.
    ///
    /// # Errors
    /// Where it does not answer, or has none of that generation.
    pub async fn records_of(
        &mut self,
        node: &str,
        generation: Option<u64>,
        from: u64,
    ) -> io::Result<ToldRecords> {
        let generation = generation.map(|generation| format!("generation={generation}&"));
        let query = format!("{}from={from}", generation.unwrap_or_default());
        let request = Request::get(format!("/v1/records?{query}")).body(Body::empty());
        let request = request.expect("the request is right");
        let (_, body) = self.send(node, request).await?;
        serde_json::from_slice(&body).map_err(io::Error::other)
    }

    async fn send(&mut self, node: &str, request: Request<Body>) -> io::Result<Told> {
        let address = Address::Unix(socket_of(&self.folder, node));
        let reply = self.wire.ask(&address, request).await?;
        Ok((reply.status, reply.body.to_vec()))
    }
}

fn nobody_answers() -> io::Error {
    io::Error::other("no process answers")
}

/// The records of a generation.
#[derive(Debug, Deserialize)]
pub struct ToldRecords {
    /// Which.
    pub generation: u64,
    /// Each by its text.
    pub records: Vec<Box<RawValue>>,
}

/// What is done of what was told.
enum Then {
    /// The caller is told it.
    Told,
    /// The same is asked again.
    Again,
    /// The call is asked in another generation.
    In(u64),
}

/// `is_first` says that the call was not asked before: then one that is too old was carried out nowhere.
fn then_of(told: &io::Result<Told>, is_first: bool) -> Then {
    let Ok((status, body)) = told else {
        return Then::Again;
    };
    if *status == StatusCode::OK {
        return Then::Told;
    }
    let refused: Option<Refused> = serde_json::from_slice(body).ok();
    match (*status, refused) {
        (StatusCode::SERVICE_UNAVAILABLE | StatusCode::TOO_MANY_REQUESTS, _) => Then::Again,
        (StatusCode::CONFLICT, Some(it)) if it.error == "NotTaken" => Then::In(it.generation),
        (StatusCode::CONFLICT, _) => Then::Again,
        (StatusCode::GONE, Some(it)) if is_first => Then::In(it.generation),
        _ => Then::Told,
    }
}
