//! A cluster of etcd, that a test starts, kills, and starts again.
use crate::host::{command_of, Host};
use nix::sys::signal::{kill, Signal};
use nix::unistd::Pid;
use rand::Rng;
use serde_json::Value;
use std::collections::HashSet;
use std::fs::File;
use std::io::Write;
use std::net::TcpListener;
use std::path::PathBuf;
use std::process::{Child, Stdio};
use std::sync::{Mutex, PoisonError};
use std::time::{Duration, Instant};
use tempfile::TempDir;

/// So long a cluster has to answer, on a machine that does much else.
pub const PATIENCE: Duration = Duration::from_secs(60);

/// How a cluster is started.
#[derive(Clone, Default)]
pub struct Setup {
    /// More words for each member's program.
    pub words: Vec<String>,
    /// The certificate of each member, and its key, for https.
    pub certificate: Option<Certificate>,
    /// The words of a program that starts each member, in place of this one.
    pub by: Vec<String>,
    /// Where each member runs; where none is named, all on this machine itself.
    pub hosts: Vec<Host>,
    /// Where an operator sits.
    pub operator: Host,
}

/// Files in PEM.
#[derive(Clone)]
pub struct Certificate {
    /// The certificate.
    pub certificate: PathBuf,
    /// Its key.
    pub key: PathBuf,
}

/// Words of one's own.
pub fn words_of(words: &[&str]) -> Vec<String> {
    words.iter().map(|word| (*word).to_owned()).collect()
}

impl Setup {
    /// With these words more.
    pub fn of(words: &[&str]) -> Setup {
        Setup {
            words: words_of(words),
            ..Setup::default()
        }
    }
}

/// Ends with all its members and their folder.
pub struct Cluster {
    folder: TempDir,
    members: Vec<Member>,
    setup: Setup,
    /// Whether only users are let in.
    has_users: bool,
}

struct Member {
    name: String,
    host: Host,
    /// Where clients find it, and the other members.
    ports: [u16; 2],
    process: Option<Child>,
}

/// A port that nobody has, and that the kernel gives to nobody by itself.
pub fn free_port() -> u16 {
    static GIVEN: Mutex<Option<HashSet<u16>>> = Mutex::new(None);
    let mut given = GIVEN.lock().unwrap_or_else(PoisonError::into_inner);
    let given = given.get_or_insert_with(HashSet::new);
    loop {
        let port = rand::thread_rng().gen_range(12_000..32_000);
        if TcpListener::bind(("127.0.0.1", port)).is_ok() && given.insert(port) {
            return port;
        }
    }
}

fn address_of(member: &Member) -> String {
    format!("{}:{}", member.host.address, member.ports[0])
}

impl Cluster {
    /// Starts a cluster, and waits until it answers.
    pub async fn start(members: usize, setup: Setup) -> Cluster {
        let cluster = Cluster::begin(members, setup);
        cluster.answers().await;
        cluster
    }

    /// Starts a cluster.
    pub fn begin(members: usize, setup: Setup) -> Cluster {
        let folder = tempfile::Builder::new().tempdir_in("/var/tmp").unwrap();
        let member = |number: usize| Member {
            name: format!("e{number}"),
            host: setup.hosts.get(number).cloned().unwrap_or_default(),
            ports: [free_port(), free_port()],
            process: None,
        };
        let members = (0..members).map(member).collect();
        let mut cluster = Cluster {
            folder,
            members,
            setup,
            has_users: false,
        };
        cluster.start_all();
        cluster
    }

    /// Starts each member that does not run.
    pub fn start_all(&mut self) {
        (0..self.members.len()).for_each(|place| self.start_member(place));
    }

    /// Starts a member that does not run.
    pub fn start_member(&mut self, place: usize) {
        if self.members[place].process.is_some() {
            return;
        }
        let member = &self.members[place];
        let (host, words) = (member.host.words(), self.words_of(member));
        let log = self.folder.path().join("log");
        let log = File::options().create(true).append(true).open(log).unwrap();
        let process = command_of(&[host, self.setup.by.clone(), words].concat())
            .stdin(Stdio::null())
            .stdout(log.try_clone().unwrap())
            .stderr(log)
            .spawn();
        let process = process.expect("etcd is started: apt-get install etcd-server etcd-client");
        self.members[place].process = Some(process);
    }

    fn words_of(&self, member: &Member) -> Vec<String> {
        let peer = |member: &Member| format!("http://{}:{}", member.host.address, member.ports[1]);
        let all = self.members.iter();
        let all = all.map(|member| format!("{}={}", member.name, peer(member)));
        let all = all.collect::<Vec<_>>().join(",");
        let folder = self.folder_of(&member.name).display().to_string();
        let (client, peer) = (self.url(member), peer(member));
        let listens = client.replace("localhost", "127.0.0.1");
        let mut words = vec!["etcd".to_owned()];
        for (word, value) in [
            ("--name", &member.name),
            ("--data-dir", &folder),
            ("--listen-client-urls", &listens),
            ("--advertise-client-urls", &client),
            ("--listen-peer-urls", &peer),
            ("--initial-advertise-peer-urls", &peer),
            ("--initial-cluster", &all),
            ("--logger", &"zap".to_owned()),
            ("--log-level", &"error".to_owned()),
        ] {
            words.extend([word.to_owned(), value.clone()]);
        }
        if let Some(Certificate { certificate, key }) = &self.setup.certificate {
            words.push(format!("--cert-file={}", certificate.display()));
            words.push(format!("--key-file={}", key.display()));
        }
        words.extend(self.setup.words.clone());
        words
    }

    fn url(&self, member: &Member) -> String {
        match self.setup.certificate {
            Some(_) => format!("https://localhost:{}", member.ports[0]),
            None => format!("http://{}", address_of(member)),
        }
    }

    /// Starts it otherwise from now on.
    pub fn set_up(&mut self, setup: Setup) {
        self.setup = setup;
    }

    /// Where a member keeps what it holds.
    pub fn folder_of(&self, name: &str) -> PathBuf {
        self.folder.path().join(name)
    }

    /// Kills a member that runs.
    pub fn kill_member(&mut self, place: usize) {
        if let Some(mut process) = self.members[place].process.take() {
            process.kill().unwrap();
            process.wait().unwrap();
        }
    }

    /// Has a member hang, until it goes on or is killed.
    pub fn stop_member(&self, place: usize) {
        self.signal(place, Signal::SIGSTOP);
    }

    /// Has a member that hangs go on.
    pub fn resume_member(&self, place: usize) {
        self.signal(place, Signal::SIGCONT);
    }

    fn signal(&self, place: usize, signal: Signal) {
        let process = self.members[place].process.as_ref().unwrap().id();
        kill(Pid::from_raw(process as i32), signal).unwrap();
    }

    /// Kills all members.
    pub fn kill_all(&mut self) {
        (0..self.members.len()).for_each(|place| self.kill_member(place));
    }

    /// How many members it has.
    pub fn members(&self) -> usize {
        self.members.len()
    }

    /// Where clients find the members: address and port.
    pub fn addresses(&self) -> impl Iterator<Item = String> + '_ {
        self.members.iter().map(address_of)
    }

    /// The place of the leader; of the first member that runs while there is none.
    pub fn leader(&self) -> usize {
        let told = self.etcdctl(&["endpoint", "status", "--write-out", "json"]);
        let told: Value = serde_json::from_str(&told).unwrap_or_default();
        let leads = |status: &&Value| {
            let status = &status["Status"];
            status["leader"] == status["header"]["member_id"]
        };
        let found = told.as_array().into_iter().flatten().find(leads);
        let found = found.and_then(|status| status["Endpoint"].as_str());
        let is_it = |member: &Member| found == Some(&self.url(member));
        let runs = |member: &Member| member.process.is_some();
        let place = self.members.iter().position(is_it);
        place.or(self.members.iter().position(runs)).unwrap()
    }

    /// What etcd's own client prints; as the operator, where only users are let in.
    pub fn etcdctl(&self, words: &[&str]) -> String {
        self.etcdctl_reading(words, "")
    }

    /// The same, where it reads what the words leave out.
    pub fn etcdctl_reading(&self, words: &[&str], input: &str) -> String {
        let mut command = self.setup.operator.command("etcdctl");
        command.env("ETCDCTL_API", "3");
        if self.has_users {
            command.env("ETCDCTL_USER", "root:root's");
        }
        let endpoints = format!("--endpoints={}", self.urls());
        command.arg(endpoints).args(words).stdin(Stdio::piped());
        let piped = command.stdout(Stdio::piped()).stderr(Stdio::null());
        let mut process = piped.spawn().unwrap();
        // One that needs it not may have ended.
        let _ = process.stdin.take().unwrap().write_all(input.as_bytes());
        let told = process.wait_with_output().unwrap();
        String::from_utf8(told.stdout).unwrap()
    }

    /// Does as an operator whatever these lines say.
    pub fn operate(&self, lines: &str) {
        for line in lines.lines() {
            let mut words = vec!["--command-timeout=60s", "--dial-timeout=60s"];
            words.extend(line.split_whitespace());
            assert_ne!(self.etcdctl(&words), "", "etcdctl {line}");
        }
    }

    /// Lets only users in from now on.
    pub fn enable_users(&mut self) {
        self.operate("user add root:root's\nuser grant-role root root\nauth enable");
        self.has_users = true;
    }

    /// The members' addresses, with commas between.
    pub fn urls(&self) -> String {
        let urls = self.members.iter().map(|member| self.url(member));
        urls.collect::<Vec<_>>().join(",")
    }

    /// Waits until it has a leader, and answers by what it holds.
    pub async fn answers(&self) {
        let began = Instant::now();
        while self
            .etcdctl(&["--command-timeout=2s", "get", "none", "--write-out=json"])
            .is_empty()
        {
            assert!(began.elapsed() < PATIENCE, "etcd does not answer");
            tokio::time::sleep(Duration::from_millis(50)).await;
        }
    }
}

impl Drop for Cluster {
    fn drop(&mut self) {
        self.kill_all();
    }
}
