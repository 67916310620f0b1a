//! A group on this machine: a process for each member, started again where that mends something.
use crate::founding::{new_group, parse, with_members, FoundingFault};
use crate::stop::Stop;
use std::fs;
use std::io;
use std::path::{Path, PathBuf};
use std::process::{ExitStatus, Stdio};
use std::time::{Duration, Instant};
use tokio::process::{Child, Command};
use tokio::signal::unix::{signal, SignalKind};

const FIRST_PAUSE: Duration = Duration::from_millis(100);
const LONGEST_PAUSE: Duration = Duration::from_secs(10);

/// What a group is started with.
#[derive(Clone, Debug)]
pub struct Group {
    /// Its folder: rows, sockets, locks and the founding file.
    pub folder: PathBuf,
    /// The number of members.
    pub members: u32,
    /// The program that is each member.
    pub program: PathBuf,
}

/// The name of a member's node in such a group.
pub fn node(member: u32) -> String {
    format!("n{member}")
}

/// The socket of a member in a group's folder.
pub fn socket(folder: &Path, member: u32) -> PathBuf {
    socket_of(folder, &node(member))
}

/// The socket of a node's process in a folder.
pub fn socket_of(folder: &Path, node: &str) -> PathBuf {
    folder.join(format!("{node}.sock"))
}

/// Makes the folder of a group, with its founding file. Where another number of members is asked for, the file has that.
///
/// # Errors
/// Where the file is no founding, or the folder can't be made.
pub fn prepare(
    file: &str,
    members: Option<u32>,
    folder: &Path,
) -> Result<Result<u32, FoundingFault>, io::Error> {
    let (text, members) = match founded(file, members) {
        Ok(made) => made,
        Err(fault) => return Ok(Err(fault)),
    };
    fs::create_dir_all(folder)?;
    fs::write(founding_file(folder), text)?;
    Ok(Ok(members))
}

fn founded(file: &str, members: Option<u32>) -> Result<(String, u32), FoundingFault> {
    let there = parse(file)?
        .get("members")
        .and_then(toml::Value::as_integer);
    let there = there.and_then(|members| u32::try_from(members).ok());
    let members = members.or(there).unwrap_or(1);
    let text = with_members(file, members as usize);
    new_group(&text, &nodes(members))?;
    Ok((text, members))
}

fn nodes(members: u32) -> Vec<String> {
    (1..=members).map(node).collect()
}

fn founding_file(folder: &Path) -> PathBuf {
    folder.join("founding.toml")
}

impl Group {
    /// Runs the group until it is asked to end.
    ///
    /// # Errors
    /// Where a process can't be started.
    pub async fn run(&self) -> io::Result<()> {
        let mut members = tokio::task::JoinSet::new();
        for member in 1..=self.members {
            let group = self.clone();
            members.spawn(async move { group.keep(member).await });
        }
        let (mut term, mut int) = (
            signal(SignalKind::terminate())?,
            signal(SignalKind::interrupt())?,
        );
        // The members end with what has started them.
        tokio::select! {
            _ = term.recv() => Ok(()),
            _ = int.recv() => Ok(()),
            ended = all(&mut members) => ended,
        }
    }

    /// Starts a member, and again whenever it ends, with growing pauses, for as long as a start mends something.
    async fn keep(&self, member: u32) -> io::Result<()> {
        let mut pause = FIRST_PAUSE;
        loop {
            let began = Instant::now();
            let mut child = self.start(member)?;
            let _open = child.stdin.take();
            let status = child.wait().await?;
            let node = node(member);
            if !Stop::is_mended_by_a_start(status.code()) {
                println!("{node} {}, and is not started again", told(status));
                return Ok(());
            }
            if began.elapsed() > LONGEST_PAUSE {
                pause = FIRST_PAUSE;
            }
            println!("{node} {}, and is made anew in {pause:?}", told(status));
            tokio::time::sleep(pause).await;
            pause = LONGEST_PAUSE.min(pause * 2);
        }
    }

    /// Starts a member, which ends where its standard input does: with this process, whatever becomes of that.
    fn start(&self, member: u32) -> io::Result<Child> {
        let mut command = Command::new(&self.program);
        command.arg("member");
        command.arg("--folder").arg(&self.folder);
        command.arg("--founding").arg(founding_file(&self.folder));
        command.arg("--nodes").arg(nodes(self.members).join(","));
        command.arg("--node").arg(node(member));
        command.arg("--ends-with-stdin");
        command.stdin(Stdio::piped()).kill_on_drop(true).spawn()
    }
}

async fn all(members: &mut tokio::task::JoinSet<io::Result<()>>) -> io::Result<()> {
    while let Some(ended) = members.join_next().await {
        ended.map_err(io::Error::other)??;
    }
    Ok(())
}

fn told(status: ExitStatus) -> String {
    use std::os::unix::process::ExitStatusExt;
    match (status.signal(), status.code()) {
        (Some(signal), _) => format!("was killed by signal {signal}"),
        (None, Some(3)) => "was fenced: another process is that member".to_owned(),
        (None, Some(4)) => "met rows that have lost cells".to_owned(),
        (None, code) => format!("ended with status {}", code.unwrap_or_default()),
    }
}
