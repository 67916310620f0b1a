//! A server of PostgreSQL for a test: in a folder of its own, as a user that is not root, and killed at the end.
use crate::host::{command_of, Host};
use nix::sys::signal::{kill, Signal};
use nix::unistd::{Pid, Uid};
use std::fs::{self, File};
use std::io::Write;
use std::os::unix::fs::chown;
use std::path::{Path, PathBuf};
use std::process::{Child, Command, Stdio};
use std::sync::{Arc, Mutex, PoisonError, Weak};
use std::thread::sleep;
use std::time::{Duration, Instant};
use tempfile::TempDir;
use tokio_postgres::{Client, NoTls};

const PROGRAMS: &str = "/usr/lib/postgresql/15/bin";
const USER: &str = "postgres";
const PATIENCE: Duration = Duration::from_secs(120);

/// The words of a program of PostgreSQL, which does not run as root.
fn words_of_program(name: &str) -> Vec<String> {
    let path = format!("{PROGRAMS}/{name}");
    assert!(
        Path::new(&path).exists(),
        "apt-get install postgresql-15: there is no {path}"
    );
    let user = [
        "setpriv",
        "--reuid",
        USER,
        "--regid",
        USER,
        "--clear-groups",
    ]
    .map(str::to_owned);
    let user = Uid::effective().is_root().then_some(user);
    user.into_iter().flatten().chain([path]).collect()
}

fn program(name: &str) -> Command {
    command_of(&words_of_program(name))
}

/// A folder of the user that servers run as.
fn folder() -> TempDir {
    folder_in(&std::env::temp_dir())
}

fn folder_in(place: &Path) -> TempDir {
    let folder = tempfile::tempdir_in(place).unwrap();
    give(folder.path());
    folder
}

/// Gives a file to the user that servers run as.
pub fn give(path: &Path) {
    if Uid::effective().is_root() {
        let id = |which: &str| {
            let told = Command::new("id").args([which, USER]).output().unwrap();
            String::from_utf8(told.stdout)
                .unwrap()
                .trim()
                .parse()
                .unwrap()
        };
        chown(path, Some(id("-u")), Some(id("-g"))).unwrap();
    }
}

fn run(command: &mut Command) {
    let told = command.stdin(Stdio::null()).output().unwrap();
    let said = String::from_utf8_lossy(&told.stderr);
    assert!(told.status.success(), "{command:?}: {said}");
}

/// One of these for as long as a test has it.
fn shared<T>(place: &Mutex<Weak<T>>, make: impl FnOnce() -> T) -> Arc<T> {
    let mut place = place.lock().unwrap_or_else(PoisonError::into_inner);
    place.upgrade().unwrap_or_else(|| {
        let made = Arc::new(make());
        *place = Arc::downgrade(&made);
        made
    })
}

/// A data folder that was never started.
fn new_data() -> Arc<TempDir> {
    static DATA: Mutex<Weak<TempDir>> = Mutex::new(Weak::new());
    shared(&DATA, || {
        let made = folder();
        let words = ["-U", "operator", "-A", "trust", "-E", "UTF8", "--no-locale"];
        let data = made.path().join("data");
        run(program("initdb")
            .args(words)
            .args(["--no-sync", "--wal-segsize=4", "-D"])
            .arg(data));
        made
    })
}

/// How a server is started.
#[derive(Clone, Default)]
pub struct Setup {
    /// Settings `name=value`.
    pub settings: Vec<String>,
    /// The words of a program that starts it.
    pub by: Vec<String>,
    /// Where it runs. On a host of a network, clients of that network find it.
    pub host: Host,
    /// In which folder its own is made; where none is named, in that of all folders that last for a while.
    pub place: Option<PathBuf>,
}

impl Setup {
    /// With these settings.
    pub fn of(settings: &[&str]) -> Setup {
        Setup {
            settings: settings.iter().map(|&it| it.to_owned()).collect(),
            ..Setup::default()
        }
    }
}

/// Ends with all its processes and its folder.
pub struct Server {
    folder: TempDir,
    setup: Setup,
    postmaster: Option<Child>,
    _new_data: Option<Arc<TempDir>>,
}

impl Server {
    /// A server with settings `name=value`.
    pub fn start(settings: &[&str]) -> Server {
        Server::start_as(Setup::of(settings))
    }

    /// A server that is started so.
    pub fn start_as(setup: Setup) -> Server {
        let new_data = new_data();
        let folder = setup.place.as_deref().map_or_else(folder, folder_in);
        run(Command::new("cp")
            .arg("-a")
            .arg(new_data.path().join("data"))
            .arg(folder.path()));
        Server::of(folder, setup, Some(new_data))
    }

    /// A server that several tests have at one time.
    pub fn shared() -> Arc<Server> {
        static SERVER: Mutex<Weak<Server>> = Mutex::new(Weak::new());
        shared(&SERVER, || Server::start(&[]))
    }

    /// A standby of a server, of which it has all.
    pub fn standby_of(primary: &Server, name: &str) -> Server {
        let folder = folder();
        run(program("pg_basebackup")
            .args(["-U", "operator", "-c", "fast", "--no-sync", "-R", "-h"])
            .arg(primary.path())
            .arg("-D")
            .arg(folder.path().join("data")));
        let setup = Setup::of(&[&format!("cluster_name={name}")]);
        Server::of(folder, setup, None)
    }

    fn of(folder: TempDir, setup: Setup, new_data: Option<Arc<TempDir>>) -> Server {
        let mut server = Server {
            folder,
            setup,
            postmaster: None,
            _new_data: new_data,
        };
        server.let_the_network_in();
        server.go_on();
        server
    }

    /// Lets the hosts of its network in, where it has one.
    fn let_the_network_in(&self) {
        if self.setup.host.namespace.is_some() {
            let rules = File::options().append(true).open(self.file("pg_hba.conf"));
            rules
                .and_then(|mut rules| rules.write_all(b"host all all samenet trust\n"))
                .unwrap();
        }
    }

    /// Where clients find it, as a URL has it: the folder of its socket, or on a host of a network address and port.
    pub fn address(&self) -> String {
        match self.setup.host.namespace {
            Some(_) => format!("{}:{}", self.setup.host.address, self.port()),
            None => self.path().display().to_string().replace('/', "%2F"),
        }
    }

    /// Its port.
    pub fn port(&self) -> &str {
        let settings = &self.setup.settings;
        let port = settings.iter().find_map(|it| it.strip_prefix("port="));
        port.unwrap_or("5432")
    }

    /// Its folder, where its socket is too.
    pub fn path(&self) -> &Path {
        self.folder.path()
    }

    /// A file of its data.
    pub fn file(&self, name: &str) -> PathBuf {
        self.path().join("data").join(name)
    }

    /// The words of a connection of a role.
    pub fn words(&self, role: &str) -> String {
        let (host, port) = (self.path().display(), self.port());
        format!("host={host} port={port} user={role} dbname=postgres")
    }

    /// The same as one URL.
    pub fn url(&self, role: &str) -> String {
        format!("postgresql://{role}@{}/postgres", self.address())
    }

    /// Asks as the operator, whom the server obeys in all.
    pub async fn operator(&self) -> Client {
        let (client, connection) = tokio_postgres::connect(&self.words("operator"), NoTls)
            .await
            .unwrap();
        tokio::spawn(connection);
        client
    }

    /// Carries statements out as the operator.
    pub async fn run(&self, statements: &str) {
        self.operator()
            .await
            .batch_execute(statements)
            .await
            .unwrap();
    }

    /// Starts it, again where it was killed.
    pub fn go_on(&mut self) {
        let began = Instant::now();
        loop {
            self.launch();
            if self.is_ready(began) {
                return;
            }
            // Processes of the one that was killed are still there.
            self.kill();
            sleep(Duration::from_millis(100));
        }
    }

    fn launch(&mut self) {
        for name in ["data/postmaster.pid", ".s.PGSQL.5432", ".s.PGSQL.5432.lock"] {
            let _ = fs::remove_file(self.path().join(name));
        }
        let log = self.path().join("log");
        let log = File::options().create(true).append(true).open(log).unwrap();
        let Setup { host, by, .. } = &self.setup;
        let listens = match host.namespace {
            Some(_) => host.address.as_str(),
            None => "",
        };
        let own = [
            &format!("listen_addresses={listens}"),
            "shared_buffers=16MB",
            "max_connections=60",
        ];
        let words = [host.words(), by.clone(), words_of_program("postgres")].concat();
        let mut command = command_of(&words);
        command.arg("-D").arg(self.path().join("data"));
        command.arg("-k").arg(self.path());
        let settings = self.setup.settings.iter().map(String::as_str);
        for setting in own.into_iter().chain(settings) {
            command.args(["-c", setting]);
        }
        command
            .stdin(Stdio::null())
            .stdout(Stdio::null())
            .stderr(log);
        self.postmaster = Some(command.spawn().unwrap());
    }

    /// Whether it takes connections, which its own file tells; not where it has ended.
    fn is_ready(&mut self, began: Instant) -> bool {
        let file = self.file("postmaster.pid");
        while began.elapsed() < PATIENCE {
            let told = fs::read_to_string(&file).unwrap_or_default();
            if told.lines().nth(7).is_some_and(|it| it.trim() == "ready") {
                return true;
            }
            let postmaster = self.postmaster.as_mut().unwrap();
            if postmaster.try_wait().unwrap().is_some() {
                return false;
            }
            sleep(Duration::from_millis(20));
        }
        let log = fs::read_to_string(self.path().join("log")).unwrap_or_default();
        panic!("the server does not start: {log}");
    }

    /// Whether it has ended by itself.
    pub fn has_ended(&mut self) -> bool {
        let postmaster = self.postmaster.as_mut();
        postmaster.is_none_or(|it| it.try_wait().unwrap().is_some())
    }

    /// Has all its processes hang, until they go on or are killed.
    pub fn stop(&self) {
        self.signal(Signal::SIGSTOP);
    }

    /// Has processes that hang go on.
    pub fn resume(&self) {
        self.signal(Signal::SIGCONT);
    }

    fn signal(&self, signal: Signal) {
        for process in processes_in(&self.path().join("data")) {
            // One that has ended meanwhile is none.
            let _ = kill(process, signal);
        }
    }

    /// Kills all its processes at once, as a crash of its machine does but for what the kernel holds. None of them is left then: one that was
    /// just being started might still tell a primary that it has what comes.
    pub fn kill(&mut self) {
        let Some(mut postmaster) = self.postmaster.take() else {
            return;
        };
        let _ = postmaster.kill();
        let data = self.path().join("data");
        loop {
            let processes = processes_in(&data);
            if processes.is_empty() {
                break;
            }
            for process in processes {
                // One that has ended meanwhile is none.
                let _ = kill(process, Signal::SIGKILL);
            }
            sleep(Duration::from_millis(5));
        }
        postmaster.wait().unwrap();
    }
}

/// The processes that work in a folder, as each one of a server does in its data.
fn processes_in(folder: &Path) -> Vec<Pid> {
    let folder = folder.canonicalize().unwrap();
    let works_there =
        |id: &i32| fs::read_link(format!("/proc/{id}/cwd")).is_ok_and(|it| it == folder);
    let all = fs::read_dir("/proc").unwrap();
    let all = all.filter_map(|entry| entry.ok()?.file_name().to_str()?.parse().ok());
    all.filter(works_there).map(Pid::from_raw).collect()
}

impl Drop for Server {
    fn drop(&mut self) {
        self.kill();
    }
}
