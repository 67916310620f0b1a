//! Where programs of a test run: on this machine itself, or on a host of a network that a test has made.
use nix::sched::{setns, CloneFlags};
use std::fs::File;
use std::os::fd::AsRawFd;
use std::process::Command;

/// A machine, as far as programs on it can tell by their network.
#[derive(Clone, Debug)]
pub struct Host {
    /// Where the others find it.
    pub address: String,
    /// The network namespace that it is; none of this machine itself.
    pub namespace: Option<String>,
}

impl Default for Host {
    fn default() -> Host {
        Host {
            address: "127.0.0.1".to_owned(),
            namespace: None,
        }
    }
}

impl Host {
    /// The words of the program by which another one is started there; none of this machine itself.
    pub fn words(&self) -> Vec<String> {
        let words = |name: &String| ["ip", "netns", "exec", name].map(str::to_owned).to_vec();
        self.namespace.as_ref().map(words).unwrap_or_default()
    }

    /// What starts a program there.
    pub fn command(&self, program: &str) -> Command {
        command_of(&[self.words(), vec![program.to_owned()]].concat())
    }

    /// Has this thread open its sockets there from now on.
    pub fn enter(&self) {
        if let Some(name) = &self.namespace {
            let namespace = File::open(format!("/run/netns/{name}")).unwrap();
            setns(namespace.as_raw_fd(), CloneFlags::CLONE_NEWNET).unwrap();
        }
    }
}

/// What these words start, of which the first is a program.
pub fn command_of(words: &[String]) -> Command {
    let mut command = Command::new(&words[0]);
    command.args(&words[1..]);
    command
}
