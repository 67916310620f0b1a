//! A group of real processes that is measured.
use crate::store::Store;
use fochillund::ask::Members;
use fochillund::callers::State;
use fochillund::group::{node, socket};
use std::path::{Path, PathBuf};
use std::process::{Child, Command, Stdio};
use std::time::Duration;

const MOST_SENT: i64 = 65_536;

/// Ends with its processes.
pub struct Group {
    pub folder: PathBuf,
    /// That of the first member, which is moved.
    pub first_folder: PathBuf,
    /// By which words each process finds its rows.
    rows: Vec<String>,
    members: u32,
    processes: Vec<Child>,
    observers: Vec<Child>,
}

impl Group {
    /// Starts the members of a new group of this name.
    pub fn start(store: &Store, name: &str, members: u32) -> Group {
        Group::start_with(store, name, members, &[])
    }

    /// The same, each with these words more.
    pub fn start_with(store: &Store, name: &str, members: u32, more: &[&str]) -> Group {
        let folder = store.folder().join(name);
        let _ = std::fs::remove_dir_all(&folder);
        std::fs::create_dir_all(&folder).expect("a folder");
        let founding = format!(
            "version = 1\nmembers = {members}\nsent_limit = {MOST_SENT}\n\
             operations = [\"read\"]\nobjects = [\"chart\"]\npermissions = [[\"read\", \"chart\"]]\n"
        );
        std::fs::write(folder.join("founding.toml"), founding).expect("a founding");
        let mut group = Group {
            first_folder: folder.clone(),
            rows: store.words(name),
            folder,
            members,
            processes: Vec::new(),
            observers: Vec::new(),
        };
        for member in 1..=members {
            let process = group.spawn(&group.folder, member, more);
            group.processes.push(process);
        }
        group
    }

    /// The program with a word, and those by which it finds the group's rows. It says nothing.
    fn program(&self, word: &str) -> Command {
        let here = std::env::current_exe().expect("a path");
        let programs = here.parent().and_then(Path::parent).expect("a folder");
        let mut command = Command::new(programs.join("fochillund"));
        command.arg(word).args(&self.rows);
        command.stdout(Stdio::null()).stderr(Stdio::null());
        command
    }

    fn spawn(&self, folder: &Path, member: u32, more: &[&str]) -> Child {
        let nodes: Vec<String> = (1..=self.members).map(node).collect();
        let mut command = self.program("member");
        command.arg("--folder").arg(folder).arg("--founding");
        command.arg(self.folder.join("founding.toml"));
        command.args(["--nodes", &nodes.join(","), "--node", &node(member)]);
        command.args(more).spawn().expect("build fochillund first")
    }

    /// Proposes the next generation, of the same nodes.
    pub fn propose(&self) -> Child {
        let nodes: Vec<String> = (1..=self.members).map(node).collect();
        let mut command = self.program("propose");
        command.arg("--folder").arg(&self.folder);
        let command = command.args(["--nodes", &nodes.join(",")]);
        command.spawn().expect("build fochillund first")
    }

    /// Has so many processes follow the group, and waits until each has read what it has.
    pub async fn observe(&mut self, observers: usize) {
        let folder = self.folder.join("observers");
        std::fs::create_dir_all(&folder).expect("a folder");
        for observer in 1..=observers {
            let mut command = self.program("observe");
            command.arg("--folder").arg(&self.folder);
            command
                .arg("--socket")
                .arg(socket(&folder, observer as u32));
            let process = command.spawn().expect("build fochillund first");
            self.observers.push(process);
        }
        let sent = self.sent().await;
        let mut client = Members::of(&folder, Duration::from_secs(60));
        for observer in 1..=observers {
            let has_read = |state: std::io::Result<State>| {
                state.is_ok_and(|state| state.taken.iter().sum::<u64>() >= sent)
            };
            while !has_read(client.state(observer as u32).await) {
                tokio::time::sleep(Duration::from_millis(5)).await;
            }
        }
    }

    /// Kills all that follow it.
    pub fn unobserve(&mut self) {
        kill(&mut self.observers);
    }

    /// Kills all processes.
    pub fn kill(&mut self) {
        kill(&mut self.processes);
        self.unobserve();
    }

    /// Kills the last member.
    pub fn kill_last(&mut self) {
        kill(&mut self.processes.split_off(self.processes.len() - 1));
    }

    /// Starts the first member again.
    pub fn spawn_first(&mut self) {
        let process = self.spawn(&self.folder, 1, &[]);
        self.processes.push(process);
    }

    /// Starts the first member in another folder, as on another machine, by the one command that takes over.
    pub fn move_first(&mut self, to: PathBuf) {
        let process = self.spawn(&to, 1, &["--take-over"]);
        self.processes.push(process);
        self.first_folder = to;
    }

    /// The processor time of all members, in seconds.
    pub fn processor_time(&self) -> f64 {
        let times = self.processes.iter();
        times.map(|process| processor_time(process.id())).sum()
    }

    /// Waits until each member answers.
    pub async fn is_up(&self) {
        for member in 1..=self.members {
            while !socket(&self.folder, member).exists()
                || self.client().state(member).await.is_err()
            {
                tokio::time::sleep(Duration::from_millis(1)).await;
            }
        }
    }

    pub fn client(&self) -> Members {
        Members::of(&self.folder, Duration::from_secs(60))
    }

    /// How many messages all members have sent.
    pub async fn sent(&self) -> u64 {
        let state = self.client().state(1).await.expect("it is up");
        state.taken.iter().sum()
    }
}

fn kill(processes: &mut Vec<Child>) {
    for mut process in processes.drain(..) {
        // One that has ended is killed too.
        let _ = process.kill();
        let _ = process.wait();
    }
}

impl Drop for Group {
    fn drop(&mut self) {
        self.kill();
    }
}

/// The processor time of a process, in seconds.
pub fn processor_time(process: u32) -> f64 {
    let text = std::fs::read_to_string(format!("/proc/{process}/stat")).expect("it runs");
    let (_, rest) = text.rsplit_once(") ").expect("a name");
    let fields: Vec<&str> = rest.split(' ').collect();
    let ticks: f64 = [11, 12]
        .map(|at| fields[at].parse::<f64>().expect("a number"))
        .iter()
        .sum();
    ticks / 100.0
}
