//! How fast decisions are told by what a process has delivered, beside a daemon of the same hyper that answers true to all.
//!
//!     cargo run --release --example decisions -- [SECONDS [LAPS]]
//!
//! Prints a line for each lap of each: requests a second over 64 connections, with how long half of them took at most and 99 of 100, and the server's
//! processor time a request; and decisions a second in lists of 64.
mod plain;

use hyper::body::to_bytes;
use hyper::client::conn::handshake;
use hyper::{Body, Request};
use serde_json::{json, Value};
use std::path::{Path, PathBuf};
use std::process::{Child, Command, Stdio};
use std::time::{Duration, Instant};
use tokio::net::UnixStream;

const CONNECTIONS: usize = 64;
/// In so many threads of this process.
const THREADS: usize = 2;
const EVALUATIONS: usize = 64;

/// A server, which ends with this.
struct Server {
    process: Child,
    socket: PathBuf,
}

impl Server {
    fn start(mut command: Command, socket: PathBuf) -> Server {
        let process = command.stdout(Stdio::null()).spawn().expect("it starts");
        Server { process, socket }
    }

    /// The processor time that it took, in seconds.
    fn spent(&self) -> f64 {
        let path = format!("/proc/{}/stat", self.process.id());
        let text = std::fs::read_to_string(path).expect("it runs");
        let (_, rest) = text.rsplit_once(") ").expect("a name");
        let fields: Vec<&str> = rest.split(' ').collect();
        let ticks = [11, 12].map(|at| fields[at].parse::<f64>().expect("a number"));
        ticks.iter().sum::<f64>() / 100.0
    }
}

impl Drop for Server {
    fn drop(&mut self) {
        let _ = self.process.kill();
        let _ = self.process.wait();
    }
}

/// What is asked: a path and a body, and how many decisions it has.
#[derive(Clone)]
struct Asked {
    path: &'static str,
    body: String,
    decisions: usize,
}

async fn connected(socket: &Path) -> hyper::client::conn::SendRequest<Body> {
    let stream = loop {
        match UnixStream::connect(socket).await {
            Ok(stream) => break stream,
            Err(_) => tokio::time::sleep(Duration::from_millis(5)).await,
        }
    };
    let (sender, connection) = handshake(stream).await.expect("it speaks HTTP");
    tokio::spawn(connection);
    sender
}

async fn ask(sender: &mut hyper::client::conn::SendRequest<Body>, asked: &Asked) -> Value {
    let request = Request::post(asked.path).body(Body::from(asked.body.clone()));
    let told = sender.send_request(request.expect("a request")).await;
    let body = to_bytes(told.expect("it answers").into_body()).await;
    serde_json::from_slice(&body.expect("it answers")).expect("JSON")
}

/// Asks again and again, and checks that nothing else is told than at first.
async fn caller(socket: PathBuf, asked: Asked, until: Instant) -> Vec<Duration> {
    let mut sender = connected(&socket).await;
    let mut times = Vec::new();
    while Instant::now() < until {
        let began = Instant::now();
        let request = Request::post(asked.path).body(Body::from(asked.body.clone()));
        let told = sender.send_request(request.expect("a request")).await;
        let body = to_bytes(told.expect("it answers").into_body()).await;
        let body = body.expect("it answers");
        times.push(began.elapsed());
        assert!(body.windows(15).any(|some| some == b"\"decision\":true"));
    }
    times
}

/// The callers of one thread.
fn callers(socket: &Path, asked: &Asked, until: Instant) -> Vec<Duration> {
    runtime().block_on(async {
        let one = |_| tokio::spawn(caller(socket.to_owned(), asked.clone(), until));
        let calling: Vec<_> = (0..CONNECTIONS / THREADS).map(one).collect();
        let mut times = Vec::new();
        for caller in calling {
            times.extend(caller.await.expect("it ends"));
        }
        times
    })
}

fn runtime() -> tokio::runtime::Runtime {
    let runtime = tokio::runtime::Builder::new_current_thread();
    { runtime }.enable_all().build().expect("a runtime")
}

fn lap(name: &str, server: &Server, asked: &Asked, lasts: Duration) {
    let (spent, until) = (server.spent(), Instant::now() + lasts);
    let thread = |_| {
        let (socket, asked) = (server.socket.clone(), asked.clone());
        std::thread::spawn(move || callers(&socket, &asked, until))
    };
    let threads: Vec<_> = (0..THREADS).map(thread).collect();
    let mut times: Vec<Duration> = Vec::new();
    for thread in threads {
        times.extend(thread.join().expect("it ends"));
    }
    let (requests, spent) = (times.len() as f64, server.spent() - spent);
    times.sort();
    let at = |share: usize| times[(times.len() - 1) * share / 100].as_secs_f64() * 1000.0;
    println!(
        "{name}: {:.0} requests/s, {:.0} decisions/s, p50 {:.2} ms, p99 {:.2} ms, {:.1} us a request",
        requests / lasts.as_secs_f64(),
        requests * asked.decisions as f64 / lasts.as_secs_f64(),
        at(50),
        at(99),
        spent / requests * 1e6
    );
}

fn program(name: &str) -> PathBuf {
    let here = std::env::current_exe().expect("a path");
    let folder = here.parent().and_then(Path::parent).expect("a folder");
    folder.join(name)
}

/// A member that has the policy, and a process that follows it.
async fn followed(folder: &Path) -> (Server, Server) {
    let founding = folder.join("founding.toml");
    let text = "version = 1\nmembers = 1\noperations = [\"read\"]\nobjects = [\"chart\"]\npermissions = [[\"read\", \"chart\"]]\n";
    std::fs::write(&founding, text).expect("it is written");
    let mut member = Command::new(program("fochillund"));
    member.args(["member", "--node", "n1", "--nodes", "n1", "--folder"]);
    member.arg(folder).arg("--founding").arg(founding);
    let member = Server::start(member, folder.join("n1.sock"));
    let mut sender = connected(&member.socket).await;
    let policy = json!({ "commands": [
        { "name": "AddUser", "user": "ann" },
        { "name": "AddRole", "role": "nurse" },
        { "name": "AssignUser", "user": "ann", "role": "nurse" },
        { "name": "GrantPermission", "operation": "read", "object": "chart", "role": "nurse" },
        { "name": "CreateSession", "user": "ann", "session": "s1", "roles": ["nurse"] },
    ] });
    let asked = Asked {
        path: "/v1/commands",
        body: policy.to_string(),
        decisions: 0,
    };
    ask(&mut sender, &asked).await;
    let mut observer = Command::new(program("fochillund"));
    let socket = folder.join("observer.sock");
    observer.arg("observe").arg("--folder").arg(folder);
    observer.arg("--socket").arg(&socket);
    (member, Server::start(observer, socket))
}

fn evaluation() -> Value {
    json!({
        "subject": { "type": "session", "id": "s1" },
        "action": { "name": "read" },
        "resource": { "type": "record", "id": "chart" },
    })
}

#[tokio::main(flavor = "current_thread")]
async fn main() {
    let words: Vec<String> = std::env::args().skip(1).collect();
    if let [word, socket] = &words[..] {
        if word == "plain" {
            return plain::serve(Path::new(socket)).await;
        }
    }
    let number = |at: usize| words.get(at).and_then(|it| it.parse().ok());
    let (lasts, laps) = (number(0).unwrap_or(4), number(1).unwrap_or(3));
    let lasts = Duration::from_secs(lasts);
    let folder = tempfile::tempdir().expect("a folder");
    let (_member, observer) = followed(folder.path()).await;
    let mut plain = Command::new(std::env::current_exe().expect("a path"));
    let socket = folder.path().join("plain.sock");
    plain.arg("plain").arg(&socket);
    let plain = Server::start(plain, socket);
    let one = Asked {
        path: "/access/v1/evaluation?consistency=local",
        body: evaluation().to_string(),
        decisions: 1,
    };
    let list = Asked {
        path: "/access/v1/evaluations?consistency=local",
        body: json!({ "evaluations": vec![evaluation(); EVALUATIONS] }).to_string(),
        decisions: EVALUATIONS,
    };
    let told = ask(&mut connected(&observer.socket).await, &one).await;
    assert_eq!(told["decision"], true, "{told}");
    for _ in 0..laps {
        lap("true to all", &plain, &one, lasts);
        lap("evaluation", &observer, &one, lasts);
        lap("lists of 64", &observer, &list, lasts);
    }
}
