//! A network of hosts on this machine: each is a network namespace, joined by a bridge in one more, whose rules drop what goes between them.
use crate::host::Host;
use std::io::Write;
use std::process::{Command, Stdio};
use std::sync::atomic::{AtomicU32, Ordering};

/// Ends with its hosts; what still runs on one then has no network.
pub struct Network {
    /// The host of the bridge, which no rule keeps from the others.
    operator: Host,
    hosts: Vec<Host>,
}

/// What befalls all that goes between hosts.
#[derive(Clone, Debug, PartialEq, Eq)]
pub enum Rule {
    /// So many packets of a hundred are dropped, at random.
    Lose(u32),
    /// Nothing of the first hosts reaches the second ones.
    Cut(Vec<usize>, Vec<usize>),
}

/// A table of the bridge, by which all goes that is sent from one host to another.
const TABLE: &str = "table bridge rules {
chain between {
type filter hook forward priority 0
}
}
";

impl Network {
    /// A network of so many hosts.
    ///
    /// # Errors
    /// Why this machine makes none.
    pub fn of(hosts: usize) -> Result<Network, String> {
        static COUNT: AtomicU32 = AtomicU32::new(0);
        let (process, count) = (std::process::id(), COUNT.fetch_add(1, Ordering::SeqCst));
        let host = |place: usize| Host {
            address: format!("10.77.0.{}", place + 1),
            namespace: Some(format!("rows-{process}-{count}-{place}")),
        };
        let network = Network {
            operator: host(hosts),
            hosts: (0..hosts).map(host).collect(),
        };
        network.make().map(|()| network)
    }

    fn make(&self) -> Result<(), String> {
        let bridge = self.operator.namespace.as_deref().unwrap_or_default();
        run(Command::new("ip").args(["netns", "add", bridge]), "")?;
        let address = &self.operator.address;
        let lines = format!(
            "link add name bridge0 type bridge\naddr add {address}/24 dev bridge0\nlink set bridge0 up\n"
        );
        batch(bridge, &lines)?;
        for (place, host) in self.hosts.iter().enumerate() {
            join(bridge, place, host)?;
        }
        self.apply(TABLE)
    }

    /// A host, by its place.
    pub fn host(&self, place: usize) -> &Host {
        &self.hosts[place]
    }

    /// Where an operator sits, whom no rule keeps from any host.
    pub fn operator(&self) -> &Host {
        &self.operator
    }

    /// Has these rules hold from now on, and no others.
    pub fn set_rules(&self, rules: &[Rule]) {
        let mut lines = "flush chain bridge rules between\n".to_owned();
        for rule in rules {
            let told = self.text_of(rule);
            lines += &format!("add rule bridge rules between {told} drop\n");
        }
        self.apply(&lines).unwrap();
    }

    fn text_of(&self, rule: &Rule) -> String {
        let addresses = |places: &[usize]| {
            let each = places.iter().map(|&place| &*self.hosts[place].address);
            each.collect::<Vec<_>>().join(", ")
        };
        match rule {
            Rule::Lose(percent) => format!("numgen random mod 100 < {percent}"),
            Rule::Cut(from, to) => {
                let (from, to) = (addresses(from), addresses(to));
                format!("ip saddr {{ {from} }} ip daddr {{ {to} }}")
            }
        }
    }

    fn apply(&self, lines: &str) -> Result<(), String> {
        run(self.operator.command("nft").args(["-f", "-"]), lines)
    }
}

/// Makes a host, at a port of the bridge.
fn join(bridge: &str, place: usize, host: &Host) -> Result<(), String> {
    let name = host.namespace.as_deref().unwrap_or_default();
    run(Command::new("ip").args(["netns", "add", name]), "")?;
    let lines = format!(
        "link add port{place} type veth peer name eth0 netns {name}\nlink set port{place} master bridge0\nlink set port{place} up\n"
    );
    batch(bridge, &lines)?;
    let address = &host.address;
    let lines = format!("addr add {address}/24 dev eth0\nlink set eth0 up\nlink set lo up\n");
    batch(name, &lines)
}

/// Has `ip` carry lines out in a namespace.
fn batch(namespace: &str, lines: &str) -> Result<(), String> {
    run(
        Command::new("ip").args(["-n", namespace, "-batch", "-"]),
        lines,
    )
}

/// Runs a program that reads these lines.
fn run(command: &mut Command, lines: &str) -> Result<(), String> {
    let started = command.stdin(Stdio::piped()).stderr(Stdio::piped()).spawn();
    let told = started.and_then(|mut process| {
        // One that ends before it has read them says why.
        let _ = process
            .stdin
            .take()
            .map(|mut it| it.write_all(lines.as_bytes()));
        process.wait_with_output()
    });
    match told {
        Ok(told) if told.status.success() => Ok(()),
        Ok(told) => Err(String::from_utf8_lossy(&told.stderr).trim().to_owned()),
        Err(error) => Err(format!(
            "{}: {error}",
            command.get_program().to_string_lossy()
        )),
    }
}

impl Drop for Network {
    fn drop(&mut self) {
        for host in self.hosts.iter().chain([&self.operator]) {
            let name = host.namespace.as_deref().unwrap_or_default();
            // One that was never made is none.
            let _ = run(Command::new("ip").args(["netns", "del", name]), "");
        }
    }
}
