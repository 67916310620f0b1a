//! Where the rows are that are measured.
use rows::{etcd, postgres, Engine, Etcd, Fault, Files, Postgres};
use servers::etcd::{Cluster, Setup};
use servers::host::Host;
use servers::postgres::Server;
use servers::proxy::Proxy;
use std::net::TcpListener;
use std::path::{Path, PathBuf};
use std::sync::Arc;
use std::time::Duration;

/// What a bare set is measured in, beside the group's rows.
const BARE: &str = "bare";

/// Rows on this machine.
pub struct Store {
    kind: Kind,
    /// What stands before its servers, where these are far.
    far: Vec<Proxy>,
}

enum Kind {
    /// In a folder.
    Files(PathBuf),
    Etcd(Cluster),
    Postgres(Server),
}

impl Store {
    /// What a word names: a folder, `etcd1` and `etcd3` for clusters of so many, or `postgresql`, behind which stand settings `,name=value` of the server.
    /// Behind an engine's word `+` and a number is how many milliseconds all that is sent to it is under way, and all that it sends.
    pub fn of(word: &str) -> Store {
        let (engine, delay) = word.split_once('+').unwrap_or((word, "0"));
        let (engine, settings) = engine.split_once(',').unwrap_or((engine, ""));
        let mut settings: Vec<&str> = settings.split_terminator(',').collect();
        let port = format!("port={}", free_port());
        if delay != "0" {
            settings.extend(["listen_addresses=127.0.0.1", &port]);
        }
        let kind = match engine {
            "etcd1" => Kind::Etcd(Cluster::begin(1, setup_of_etcd())),
            "etcd3" => Kind::Etcd(Cluster::begin(3, setup_of_etcd())),
            "postgresql" => Kind::Postgres(Server::start(&settings)),
            _ => Kind::Files(Path::new(word).join("load")),
        };
        let delay = Duration::from_secs_f64(delay.parse().unwrap_or(0.0) / 1000.0);
        Store {
            far: far(&kind, delay),
            kind,
        }
    }

    pub fn is_of_files(&self) -> bool {
        matches!(self.kind, Kind::Files(_))
    }

    /// Where the processes of a group have their folder.
    pub fn folder(&self) -> PathBuf {
        match &self.kind {
            Kind::Files(folder) => folder.clone(),
            Kind::Etcd(_) | Kind::Postgres(_) => std::env::temp_dir().join("load"),
        }
    }

    fn place(&self) -> String {
        let far: Vec<String> = self.far.iter().map(Proxy::address).collect();
        match &self.kind {
            Kind::Files(folder) => folder.display().to_string(),
            Kind::Etcd(cluster) if far.is_empty() => cluster.urls(),
            Kind::Etcd(_) => far
                .iter()
                .map(|it| format!("http://{it}"))
                .collect::<Vec<_>>()
                .join(","),
            Kind::Postgres(server) if far.is_empty() => server.url("operator"),
            Kind::Postgres(_) => format!("postgresql://operator@{}/postgres", far[0]),
        }
    }

    /// By which words a process of a group finds its rows.
    pub fn words(&self, group: &str) -> Vec<String> {
        let place = match &self.kind {
            Kind::Files(folder) => folder.join(group).display().to_string(),
            _ => self.place(),
        };
        let words = ["--rows", &place, "--group", group];
        words.map(str::to_owned).to_vec()
    }

    /// The engine as a process has it.
    pub async fn open(&self) -> Arc<dyn Engine> {
        loop {
            match self.opened().await {
                Err(Fault::Silent(_)) => tokio::time::sleep(Duration::from_millis(20)).await,
                opened => return opened.expect("it is opened"),
            }
        }
    }

    async fn opened(&self) -> Result<Arc<dyn Engine>, Fault> {
        let place = self.place();
        Ok(match &self.kind {
            Kind::Files(folder) => Arc::new(Files::of(folder.join(BARE))),
            Kind::Etcd(_) => {
                let urls = place.split(',').map(|url| url.parse().expect("a URL"));
                let options = etcd::Options::of(urls.collect(), BARE);
                Arc::new(Etcd::open(options).await?)
            }
            Kind::Postgres(_) => {
                let mut options = postgres::Options::of(place);
                options.schema = BARE.to_owned();
                Arc::new(Postgres::open(options).await?)
            }
        })
    }
}

/// With syncs that take as many milliseconds more as `SLOW_SYNC` says: etcd calls no library for them, and is slowed by a tracer.
fn setup_of_etcd() -> Setup {
    let slow = std::env::var("SLOW_SYNC").ok();
    let slow = slow.and_then(|text| text.parse::<f64>().ok());
    let by = slow.filter(|it| *it > 0.0).map(|milliseconds| {
        let delay = format!("inject=fdatasync:delay_exit={}", milliseconds * 1000.0);
        let tracer = "strace -D -f --seccomp-bpf -o /dev/null -e trace=fdatasync -e";
        let words = tracer.split(' ').map(str::to_owned);
        words.chain([delay]).collect()
    });
    Setup {
        by: by.unwrap_or_default(),
        ..Setup::default()
    }
}

/// What delays all that is sent to the servers, and all that they send.
fn far(kind: &Kind, delay: Duration) -> Vec<Proxy> {
    let servers: Vec<String> = match kind {
        _ if delay.is_zero() => Vec::new(),
        Kind::Files(_) => Vec::new(),
        Kind::Etcd(cluster) => cluster.addresses().collect(),
        Kind::Postgres(server) => vec![format!("127.0.0.1:{}", server.port())],
    };
    let before = |server: &String| {
        let proxy = Proxy::on(&Host::default(), server);
        proxy.set_delay(delay);
        proxy
    };
    servers.iter().map(before).collect()
}

fn free_port() -> u16 {
    let listens = TcpListener::bind("127.0.0.1:0").and_then(|it| it.local_addr());
    listens.expect("a port").port()
}
