//! A group of real processes in a folder of its own. Not every test asks all of it.
#![allow(dead_code)]
use fochillund::ask::Members;
use fochillund::founding::LEAST_SENT_LIMIT;
use fochillund::group::{node, socket};
use servers::host::command_of;
use std::fs::File;
use std::path::{Path, PathBuf};
use std::process::Child;
use std::time::Duration;
use tempfile::TempDir;

/// How the processes of a member are started.
#[derive(Clone, Default)]
pub struct Start {
    /// The words of a program that starts each.
    pub by: Vec<String>,
    /// By which words it finds its rows; where there are none they lie in the group's folder.
    pub rows: Vec<String>,
    /// The program of another release that it is a process of.
    pub release: Option<PathBuf>,
}

/// Processes of members, each of which ends with this.
pub struct Group {
    folder: TempDir,
    /// Of each member.
    starts: Vec<Start>,
    /// Of each member, the latest last.
    processes: Vec<Vec<Child>>,
}

/// The program of another release, where one is named: that of a commit is `git show COMMIT:dist/fochillund`.
pub fn named_release() -> Option<PathBuf> {
    std::env::var_os("OTHER_RELEASE").map(PathBuf::from)
}

/// The founding of a group.
pub fn founding(members: u32) -> String {
    format!(
        r#"version = 1
members = {members}
sent_limit = {LEAST_SENT_LIMIT}
operations = ["read", "write"]
objects = ["chart", "rota"]
permissions = [["read", "chart"], ["read", "rota"], ["write", "chart"], ["write", "rota"]]
"#
    )
}

impl Group {
    /// So many members, of which none runs yet.
    pub fn of(members: u32) -> Group {
        Group::over(vec![Start::default(); members as usize])
    }

    /// The same, each started so.
    pub fn over(starts: Vec<Start>) -> Group {
        let folder = tempfile::tempdir().unwrap();
        let text = founding(starts.len() as u32);
        std::fs::write(folder.path().join("founding.toml"), text).unwrap();
        let processes = starts.iter().map(|_| Vec::new()).collect();
        Group {
            folder,
            starts,
            processes,
        }
    }

    /// The same with all members running.
    pub fn started(members: u32) -> Group {
        let mut group = Group::of(members);
        group.start_all();
        group
    }

    /// From its next process on a member is one of this release; of these sources where there is none.
    pub fn put_release(&mut self, member: u32, release: Option<&Path>) {
        self.starts[member as usize - 1].release = release.map(Path::to_owned);
    }

    /// Starts a process of each member.
    pub fn start_all(&mut self) {
        (1..=self.members()).for_each(|member| self.start(member, &[]));
    }

    pub fn members(&self) -> u32 {
        self.processes.len() as u32
    }

    pub fn folder(&self) -> &Path {
        self.folder.path()
    }

    pub fn founding(&self) -> PathBuf {
        self.folder().join("founding.toml")
    }

    fn said(&self) -> PathBuf {
        self.folder().join("said")
    }

    /// What the processes said at last.
    pub fn last_said(&self) -> String {
        let said = std::fs::read_to_string(self.said()).unwrap_or_default();
        let lines: Vec<&str> = said.lines().collect();
        lines[lines.len().saturating_sub(40)..].join("\n")
    }

    pub fn socket(&self, member: u32) -> PathBuf {
        socket(self.folder(), member)
    }

    /// A process that is to be a member, with these words more.
    pub fn spawn(&self, member: u32, more: &[&str]) -> Child {
        self.spawn_by(&[], member, more)
    }

    /// The same in a folder of its own, as on another machine.
    pub fn spawn_in(&self, folder: &Path, member: u32, more: &[&str]) -> Child {
        self.spawn_as(&[], folder, member, more)
    }

    /// The same in the group's folder, started by another program's words.
    pub fn spawn_by(&self, words: &[&str], member: u32, more: &[&str]) -> Child {
        self.spawn_as(words, self.folder(), member, more)
    }

    fn spawn_as(&self, words: &[&str], folder: &Path, member: u32, more: &[&str]) -> Child {
        let nodes: Vec<String> = (1..=self.members()).map(node).collect();
        let start = &self.starts[member as usize - 1];
        let mut by = start.by.clone();
        by.extend(words.iter().copied().map(str::to_owned));
        let release = start.release.as_ref().map(|it| it.display().to_string());
        by.push(release.unwrap_or_else(|| env!("CARGO_BIN_EXE_fochillund").to_owned()));
        let mut command = command_of(&by);
        command.arg("member").arg("--folder").arg(folder);
        command.arg("--founding").arg(self.founding());
        command.arg("--nodes").arg(nodes.join(","));
        command.arg("--node").arg(node(member));
        command.args(&start.rows).args(more);
        let said = File::options().create(true).append(true).open(self.said());
        let said = said.unwrap();
        command.stdout(said.try_clone().unwrap()).stderr(said);
        command.spawn().unwrap()
    }

    /// Starts a process of a member, beside those that there are.
    pub fn start(&mut self, member: u32, more: &[&str]) {
        let process = self.spawn(member, more);
        self.processes[member as usize - 1].push(process);
    }

    /// The same for a machine that knows nothing of their lock.
    pub fn start_elsewhere(&mut self, member: u32) {
        // It may not be there yet.
        let _ = std::fs::remove_file(self.folder().join(node(member)).with_extension("lock"));
        self.start(member, &[]);
    }

    /// The latest process of a member.
    pub fn process(&mut self, member: u32) -> Option<&mut Child> {
        self.processes[member as usize - 1].last_mut()
    }

    /// The earliest process of a member.
    pub fn first_process(&mut self, member: u32) -> &mut Child {
        &mut self.processes[member as usize - 1][0]
    }

    /// Kills a member's processes.
    pub fn kill(&mut self, member: u32) {
        for mut process in self.processes[member as usize - 1].drain(..) {
            process.kill().unwrap();
            process.wait().unwrap();
        }
    }

    /// Starts each member anew of which a process has ended, or none runs: of two at one socket the other may not be found there. Gives the statuses
    /// of those that ended.
    pub fn keep(&mut self) -> Vec<Option<i32>> {
        let mut statuses = Vec::new();
        for member in 1..=self.members() {
            let processes = &mut self.processes[member as usize - 1];
            let ended = processes.iter_mut().filter_map(|it| it.try_wait().unwrap());
            let ended: Vec<Option<i32>> = ended.map(|status| status.code()).collect();
            if !ended.is_empty() || processes.is_empty() {
                self.kill(member);
                self.start(member, &[]);
            }
            statuses.extend(ended);
        }
        statuses
    }

    /// A client of its members.
    pub fn client(&self) -> Members {
        Members::of(self.folder(), Duration::from_secs(60))
    }
}

impl Drop for Group {
    fn drop(&mut self) {
        (1..=self.members()).for_each(|member| self.kill(member));
    }
}
