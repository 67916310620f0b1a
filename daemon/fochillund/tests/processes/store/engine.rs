//! The engines' servers, which are killed, stopped and full, and whose clocks jump.
use crate::chaos::Figures;
use rand::rngs::StdRng;
use rand::Rng;
use serde_json::Value;
use servers::clock::Clock;
use servers::disk::Disk;
use servers::etcd::{self, Cluster};
use servers::network::Network;
use servers::postgres::{self, Server};
use std::thread::sleep;
use std::time::{Duration, Instant};

/// An etcd has room for so many bytes, of which the rows of all groups take a small part.
const QUOTA: usize = 48 << 20;

/// A value that fills it up with others.
const LARGE: usize = 1 << 20;

/// So long an etcd has until it is full, and until it has room again.
const LONGEST: Duration = Duration::from_secs(300);

/// What has the rows of all groups.
pub enum Engine {
    /// Each group's files in its folder.
    Files,
    /// All of them on one disk.
    SmallDisk(Disk),
    Etcd(Cluster),
    Postgres(Postgres),
}

/// A server, by a clock of its own. Its data lie on a small disk, where this machine makes one.
pub struct Postgres {
    server: Server,
    clock: Clock,
    disk: Option<Disk>,
}

impl Engine {
    pub fn small_disk() -> Result<Engine, String> {
        Ok(Engine::SmallDisk(Disk::of(64)?))
    }

    /// A cluster of three; over a network on its first hosts.
    pub fn etcd(network: Option<&Network>) -> Engine {
        let mut setup = etcd::Setup::of(&[&format!("--quota-backend-bytes={QUOTA}")]);
        if let Some(network) = network {
            setup.hosts = (0..3).map(|place| network.host(place).clone()).collect();
            setup.operator = network.operator().clone();
        }
        Engine::Etcd(Cluster::begin(3, setup))
    }

    /// A server; over a network on its first host, and on a small disk.
    pub fn postgres(network: Option<&Network>) -> Result<Engine, String> {
        let mut setup = postgres::Setup::of(&["max_connections=300", "max_wal_size=32MB"]);
        let (clock, mut disk) = (Clock::default(), None);
        setup.by = clock.words();
        if let Some(network) = network {
            setup.host = network.host(0).clone();
            let made = disk.insert(Disk::of(256)?);
            setup.place = Some(made.path().to_owned());
        }
        let server = Server::start_as(setup);
        Ok(Engine::Postgres(Postgres {
            server,
            clock,
            disk,
        }))
    }

    pub fn name(&self) -> &'static str {
        match self {
            Engine::Files => "files",
            Engine::SmallDisk(_) => "files on a small disk",
            Engine::Etcd(_) => "etcd",
            Engine::Postgres(_) => "PostgreSQL",
        }
    }

    /// Where clients find its servers, as a URL has it.
    pub fn addresses(&self) -> Vec<String> {
        match self {
            Engine::Files | Engine::SmallDisk(_) => Vec::new(),
            Engine::Etcd(cluster) => cluster.addresses().collect(),
            Engine::Postgres(it) => vec![it.server.address()],
        }
    }

    /// By which words a process of a group finds its rows at these addresses.
    pub fn rows(&self, addresses: &[String], group: &str) -> Vec<String> {
        let rows = match self {
            Engine::Files => return Vec::new(),
            Engine::SmallDisk(disk) => disk.path().join(group).display().to_string(),
            Engine::Etcd(_) => {
                let urls = addresses.iter().map(|it| format!("http://{it}"));
                urls.collect::<Vec<_>>().join(",")
            }
            Engine::Postgres(_) => format!("postgresql://operator@{}/postgres", addresses[0]),
        };
        let words = ["--rows", &rows, "--group", group];
        words.map(str::to_owned).to_vec()
    }

    /// Something befalls its servers for a while, and is counted.
    pub fn befall(&mut self, random: &mut StdRng, figures: &mut Figures) {
        let lasts = Duration::from_millis(random.gen_range(0..800));
        match self {
            Engine::Files | Engine::SmallDisk(_) => {}
            Engine::Etcd(cluster) => befall_cluster(cluster, lasts, random, figures),
            Engine::Postgres(it) => it.befall(lasts, random, figures),
        }
    }

    /// It has no room for a while, and that is counted.
    pub fn be_full(&mut self, random: &mut StdRng, figures: &mut Figures) {
        let lasts = Duration::from_millis(random.gen_range(0..800));
        match self {
            Engine::SmallDisk(disk)
            | Engine::Postgres(Postgres {
                disk: Some(disk), ..
            }) => {
                disk.fill();
                sleep(lasts);
                disk.make_room();
            }
            Engine::Etcd(cluster) => {
                fill(cluster);
                sleep(lasts);
                make_room(cluster);
            }
            _ => return,
        }
        figures.count("a full engine");
    }

    /// Starts again what has ended by itself.
    pub fn mend(&mut self) {
        if let Engine::Postgres(it) = self {
            if it.server.has_ended() {
                it.server.go_on();
            }
        }
    }
}

fn befall_cluster(
    cluster: &mut Cluster,
    lasts: Duration,
    random: &mut StdRng,
    figures: &mut Figures,
) {
    match random.gen_range(0..10) {
        0..=5 => {
            figures.count("a server killed");
            let leader = cluster.leader();
            cluster.kill_member(leader);
            sleep(lasts);
            cluster.start_member(leader);
        }
        _ => {
            figures.count("a server stopped for a while");
            let place = random.gen_range(0..cluster.members());
            cluster.stop_member(place);
            sleep(lasts * 3);
            cluster.resume_member(place);
        }
    }
}

/// Puts what is none of a group's rows until there is no room.
fn fill(cluster: &Cluster) {
    let large = "x".repeat(LARGE);
    let began = Instant::now();
    let put = || cluster.etcdctl_reading(&["put", "other"], &large);
    while !put().is_empty() || cluster.etcdctl(&["alarm", "list"]).is_empty() {
        assert!(began.elapsed() < LONGEST, "etcd is never full");
    }
}

/// Gives an etcd the room back that others have taken, as an operator does.
fn make_room(cluster: &Cluster) {
    let began = Instant::now();
    while !cluster.etcdctl(&["alarm", "list"]).is_empty() || !answers(cluster) {
        assert!(began.elapsed() < LONGEST, "etcd stays full");
        let told = cluster.etcdctl(&["get", "none", "--write-out=json"]);
        let told: Value = serde_json::from_str(&told).unwrap_or_default();
        let revision = told["header"]["revision"].to_string();
        cluster.etcdctl(&["compact", &revision]);
        cluster.etcdctl(&["defrag"]);
        cluster.etcdctl(&["alarm", "disarm"]);
    }
}

fn answers(cluster: &Cluster) -> bool {
    !cluster.etcdctl(&["put", "other", "small"]).is_empty()
}

impl Postgres {
    fn befall(&mut self, lasts: Duration, random: &mut StdRng, figures: &mut Figures) {
        match random.gen_range(0..10) {
            0..=5 => {
                figures.count("a server killed");
                self.server.kill();
                sleep(lasts);
                self.server.go_on();
            }
            6 | 7 => {
                figures.count("a server stopped for a while");
                self.server.stop();
                sleep(lasts * 3);
                self.server.resume();
            }
            _ => {
                figures.count("a server's clock jumps");
                let jump = crate::chaos::JUMP;
                self.clock
                    .jump(random.gen_range(-jump..jump), random.gen_range(0..30));
            }
        }
    }
}
