//! The program: one member of a group over rows, a group of such processes on this machine, and a client of it.
use clap::{Args, Parser, Subcommand};
use fochillund::access::{new_token, CallersFault, CallersFile, Entry, Limits, Scope, TokenHash};
use fochillund::ask::Members;
use fochillund::callers::Serving;
use fochillund::decision_log::replay::replay;
use fochillund::engine::Place;
use fochillund::founding::new_group;
use fochillund::group::{node, prepare, socket_of, Group};
use fochillund::process::{run, Options, MARGIN};
use fochillund::propose::{begun, propose, Wanted};
use fochillund::Stop;
use rows::Engine;
use std::io::{self, Write};
use std::path::{Path, PathBuf};
use std::process::ExitCode;
use std::time::Duration;
use tokio::io::{stdin, AsyncReadExt, BufReader};

/// A group of members that keep one policy of role-based access control alike, in a process each, over rows of set-once cells. Whoever may open a
/// member's socket may ask it anything; over a network it answers whom a file of callers names.
#[derive(Debug, Parser)]
#[command(name = "fochillund", version)]
struct Words {
    #[command(subcommand)]
    verb: Verb,
}

#[derive(Debug, Subcommand)]
enum Verb {
    /// Runs a group on this machine: a process for each member, in one folder, made anew where one ends
    Group {
        /// The founding file
        founding: PathBuf,
        /// How many members it has, in place of what the founding file says
        #[arg(long, value_parser = clap::value_parser!(u32).range(1..=8))]
        members: Option<u32>,
        /// The folder of its rows and sockets; by default the founding file's name with the ending .group, here
        #[arg(long)]
        folder: Option<PathBuf>,
    },
    /// Asks a group on this machine the client lines of standard input, and prints a line of answer for each. Status 1: a member is silent
    Ask {
        /// The group's folder
        folder: PathBuf,
        /// For how many seconds a call is asked again where its member does not answer
        #[arg(long, default_value_t = 30)]
        patience: u64,
    },
    /// Prints the policy of a group on this machine as client lines, which make it in a new group that is asked them. Status 1: no process answers
    Dump {
        /// The group's folder, or that of a process
        folder: PathBuf,
    },
    /// Is one member. Status 2: not started rightly; 3: fenced, another process is this member; 4: rows have lost cells, don't start it again
    /// blindly; 5: the rows can't be set or read
    Member {
        /// The folder of this process: its lock and its socket, and the rows, where they are files and --rows names no other folder
        #[arg(long)]
        folder: PathBuf,
        #[command(flatten)]
        place: Place,
        /// Take the member over at once from a process that is it elsewhere: that one is fenced
        #[arg(long = "take-over")]
        takes_over: bool,
        /// The founding file of the first generation, the same for all members. Without it the process waits until the group is founded
        #[arg(long, requires = "nodes")]
        founding: Option<PathBuf>,
        /// The nodes of members 1, 2 and so on of the first generation, the same for all members
        #[arg(long, value_delimiter = ',', requires = "founding")]
        nodes: Vec<String>,
        /// The node of this process
        #[arg(long)]
        node: String,
        /// Leave a member out, by a new generation, of whom a message is missing for so many seconds, and seal rows for who does not; by default nobody
        /// is left out but by an operator
        #[arg(long = "leave-out-after", value_parser = seconds)]
        grace: Option<Duration>,
        /// Keep the node's rows of all generations, for who wants to read them again: none is trimmed down to its seal
        #[arg(long = "keep-rows")]
        keeps_rows: bool,
        /// How many cells of its row are left when the member proposes a new generation
        #[arg(long, hide = true, default_value_t = MARGIN)]
        margin: u64,
        /// Where callers find it; by default the node's name with the ending .sock, in the folder
        #[arg(long)]
        socket: Option<PathBuf>,
        #[command(flatten)]
        serving: Box<Serving>,
        /// End at the end of standard input
        #[arg(long, hide = true)]
        ends_with_stdin: bool,
    },
    /// Follows a group, as any number of processes may, and sends nothing. Ends as a member does
    Observe {
        /// Where its callers find it
        #[arg(long)]
        socket: PathBuf,
        #[command(flatten)]
        place: Place,
        /// The folder of the rows, where they are files
        #[arg(long, default_value = ".")]
        folder: PathBuf,
        #[command(flatten)]
        serving: Box<Serving>,
    },
    /// Proposes a new generation of a group: other nodes, another founding file, or both. Waits until it has begun. Status 1: it was not proposed, or
    /// has not begun yet
    Propose {
        /// The folder of the rows, where they are files
        #[arg(long, default_value = ".")]
        folder: PathBuf,
        #[command(flatten)]
        place: Place,
        /// The nodes of its members 1, 2 and so on, in place of those of before
        #[arg(long, value_delimiter = ',')]
        nodes: Option<Vec<String>>,
        /// Nodes that are left out; their rows are sealed
        #[arg(long = "leave-out", value_delimiter = ',')]
        leave_out: Vec<String>,
        /// Nodes that are taken in
        #[arg(long = "take-in", value_delimiter = ',')]
        take_in: Vec<String>,
        /// Its founding file, in place of that of before: other operations, objects and permissions, or another kind of hierarchy
        #[arg(long)]
        founding: Option<PathBuf>,
        /// For how many seconds it is waited until the generation has begun
        #[arg(long, default_value_t = 30)]
        patience: u64,
    },
    /// Adds a caller to a file of callers, and prints its new token, which is told this once; the file has its SHA-256 alone. A process that runs
    /// reads the file again on SIGHUP
    Token(Box<Issued>),
    /// Checks a decision log: applies the history again, and asks each decision of the policy where it was made. Status 1: a line is wrong
    Replay {
        /// The founding file of the log's generation
        #[arg(long)]
        founding: PathBuf,
        /// The generation. Lines of others are counted, and not looked at
        #[arg(long, default_value_t = 1)]
        generation: u64,
        /// Client lines that make the policy behind which the history begins; nothing, where the history begins with record 1
        #[arg(long)]
        dump: Option<PathBuf>,
        /// The records, a line each, or as /v1/history streams them
        #[arg(long)]
        history: PathBuf,
        /// The decision log
        log: PathBuf,
    },
}

/// A caller that is added to a file, or taken out.
#[derive(Args, Debug)]
struct Issued {
    /// The file of callers, which is made where there is none
    file: PathBuf,
    /// The caller's name: the identity to which its calls' ids belong
    name: String,
    /// What it may ask: check, session, review, administer, operate
    #[arg(long, value_delimiter = ',', required_unless_present = "removes")]
    scopes: Vec<Scope>,
    /// Let it administer what this user's session has the permission for: `administer` on an object of the command's name
    #[arg(long, requires = "session")]
    user: Option<String>,
    /// That session
    #[arg(long, requires = "user")]
    session: Option<String>,
    /// Know it by a DNS name of its certificate, and make no token
    #[arg(long)]
    certificate: Option<String>,
    /// How many calls it may ask in a second
    #[arg(long)]
    calls: Option<u32>,
    /// How many commands and evaluations
    #[arg(long)]
    lines: Option<u32>,
    /// How many bytes of bodies
    #[arg(long)]
    bytes: Option<u32>,
    /// Take the caller out
    #[arg(long = "remove", conflicts_with_all = ["scopes", "user", "certificate", "calls", "lines", "bytes"])]
    removes: bool,
}

fn seconds(text: &str) -> Result<Duration, String> {
    fochillund::callers::seconds(text)
}

fn main() -> ExitCode {
    tracing_subscriber::fmt()
        .without_time()
        .with_level(false)
        .with_target(false)
        .with_writer(io::stdout)
        .init();
    let runtime = tokio::runtime::Builder::new_current_thread();
    let runtime = { runtime }.enable_all().build();
    match runtime.map(|runtime| runtime.block_on(start(Words::parse().verb))) {
        Ok(Ok(status)) => ExitCode::from(status),
        Ok(Err(text)) => fail(&text),
        Err(error) => fail(&error.to_string()),
    }
}

fn fail(text: &str) -> ExitCode {
    eprintln!("fochillund: {text}");
    ExitCode::from(2)
}

async fn start(verb: Verb) -> Result<u8, String> {
    match verb {
        Verb::Group {
            founding,
            members,
            folder,
        } => start_group(&founding, members, folder).await,
        Verb::Ask { folder, patience } => ask(&folder, patience).await,
        Verb::Dump { folder } => dump(&folder).await,
        Verb::Member {
            folder,
            place,
            takes_over,
            founding,
            nodes,
            node,
            grace,
            keeps_rows,
            margin,
            socket,
            serving,
            ends_with_stdin,
        } => {
            let new_group = founding.map(|file| new_group(&read(&file)?, &nodes).map_err(told));
            let options = Options {
                socket: socket.unwrap_or_else(|| socket_of(&folder, &node)),
                folder,
                place,
                node: Some(node),
                new_group: new_group.transpose()?,
                takes_over,
                grace,
                keeps_rows,
                margin,
                serving: *serving,
            };
            Ok(be_process(options, ends_with_stdin).await)
        }
        Verb::Observe {
            socket,
            place,
            folder,
            serving,
        } => {
            let options = Options {
                folder,
                place,
                node: None,
                new_group: None,
                takes_over: false,
                grace: None,
                keeps_rows: true,
                margin: MARGIN,
                socket,
                serving: *serving,
            };
            Ok(be_process(options, false).await)
        }
        Verb::Propose {
            folder,
            place,
            nodes,
            leave_out,
            take_in,
            founding,
            patience,
        } => {
            let wanted = Wanted {
                nodes,
                leave_out,
                take_in,
                file: founding.map(|file| read(&file)).transpose()?,
            };
            let engine = place.open(&folder).await.map_err(told)?;
            propose_and_wait(&*engine, &wanted, Duration::from_secs(patience)).await
        }
        Verb::Token(issued) => issue(*issued),
        Verb::Replay {
            founding,
            generation,
            dump,
            history,
            log,
        } => {
            let dump = dump.map(|file| read(&file)).transpose()?;
            let (founding, dump) = (read(&founding)?, dump.unwrap_or_default());
            let (history, log) = (read(&history)?, read(&log)?);
            tell_replayed(founding.as_bytes(), generation, &dump, &history, &log)
        }
    }
}

fn told(error: impl std::fmt::Display) -> String {
    error.to_string()
}

fn issue(issued: Issued) -> Result<u8, String> {
    let in_file = |fault: CallersFault| format!("{}: {fault}", issued.file.display());
    let mut file = CallersFile::read_if_there(&issued.file).map_err(in_file)?;
    if issued.removes {
        if !file.remove(&issued.name) {
            let file = issued.file.display();
            return Err(format!("{file}: there is no caller {}", issued.name));
        }
        file.write(&issued.file).map_err(in_file)?;
        return Ok(0);
    }
    let token = match &issued.certificate {
        Some(_) => None,
        None => Some(new_token().map_err(told)?),
    };
    file.callers.push(Entry {
        name: issued.name,
        token: token.as_deref().map(TokenHash::of),
        certificate: issued.certificate,
        scopes: issued.scopes,
        user: issued.user,
        session: issued.session,
        limits: Limits {
            calls: issued.calls,
            lines: issued.lines,
            bytes: issued.bytes,
        },
    });
    file.write(&issued.file).map_err(in_file)?;
    if let Some(token) = token {
        println!("{token}");
    }
    Ok(0)
}

fn tell_replayed(
    founding: &[u8],
    generation: u64,
    dump: &str,
    history: &str,
    log: &str,
) -> Result<u8, String> {
    let replayed = replay(founding, generation, dump, history, log).map_err(told)?;
    for (line, why) in &replayed.wrong {
        println!("line {line}: {why}");
    }
    let (right, elsewhere, wrong) = (replayed.right, replayed.elsewhere, replayed.wrong.len());
    println!("{right} lines are right, {wrong} wrong; {elsewhere} are of elsewhere");
    Ok(u8::from(wrong > 0))
}

async fn propose_and_wait(
    engine: &dyn Engine,
    wanted: &Wanted,
    patience: Duration,
) -> Result<u8, String> {
    let proposed = match propose(engine, wanted).await {
        Ok(proposed) => proposed,
        Err(fault) => {
            eprintln!("fochillund: nothing is proposed: {fault}");
            return Ok(1);
        }
    };
    let (generation, nodes) = (proposed.generation, proposed.nodes.join(","));
    println!("generation {generation} of {nodes} is proposed");
    match begun(engine, &proposed, patience).await.map_err(told)? {
        Ok(()) => {
            println!("generation {generation} has begun");
            Ok(0)
        }
        Err(nodes) => {
            eprintln!(
                "fochillund: it waits for the rows of {} to end",
                nodes.join(",")
            );
            Ok(1)
        }
    }
}

async fn be_process(options: Options, ends_with_stdin: bool) -> u8 {
    let name = options.name().to_owned();
    let stop = tokio::select! {
        stop = run(options) => stop,
        () = end_of_input(), if ends_with_stdin => Stop::Asked,
    };
    if stop.status() != 0 {
        eprintln!("{name}: {stop}");
    }
    stop.status()
}

async fn end_of_input() {
    let mut read = [0; 64];
    while matches!(stdin().read(&mut read).await, Ok(length) if length > 0) {}
}

async fn start_group(
    founding: &Path,
    members: Option<u32>,
    folder: Option<PathBuf>,
) -> Result<u8, String> {
    let named = || PathBuf::from(founding.file_stem().unwrap_or_default());
    let folder = folder.unwrap_or_else(|| named().with_extension("group"));
    let members = prepare(&read(founding)?, members, &folder);
    let members = members.map_err(|error| format!("{}: {error}", folder.display()))?;
    let members = members.map_err(|fault| fault.to_string())?;
    println!(
        "a group of {members} in {}, until this process ends",
        folder.display()
    );
    println!("ask it: ./fochillun ask {} < LINES", folder.display());
    let program = std::env::current_exe().map_err(|error| error.to_string())?;
    let group = Group {
        folder,
        members,
        program,
    };
    group.run().await.map_err(|error| error.to_string())?;
    println!(
        "the group ends; {} and the others are made anew of their rows",
        node(1)
    );
    Ok(0)
}

async fn ask(folder: &Path, patience: u64) -> Result<u8, String> {
    let mut members = Members::of(folder, Duration::from_secs(patience));
    let asked = members.ask_lines(BufReader::new(stdin()), tell).await;
    Ok(status_of(folder, asked))
}

async fn dump(folder: &Path) -> Result<u8, String> {
    let dumped = Members::of(folder, Duration::ZERO).dump().await;
    let told = dumped.map(|commands| {
        for command in commands {
            tell(&format!(r#"{{"at":1,"command":{}}}"#, command.get()));
        }
    });
    Ok(status_of(folder, told))
}

/// Who reads no further is told no further.
fn tell(line: &str) {
    if writeln!(io::stdout(), "{line}").is_err() {
        std::process::exit(1);
    }
}

fn status_of(folder: &Path, done: io::Result<()>) -> u8 {
    match done {
        Ok(()) => 0,
        Err(error) => {
            eprintln!("fochillund: {}: {error}", folder.display());
            1
        }
    }
}

fn read(path: &Path) -> Result<String, String> {
    std::fs::read_to_string(path).map_err(|error| format!("{}: {error}", path.display()))
}
