//! The Rust client: each of its calls, replies that are lost, processes that go, and what answers and is no process.
use crate::authzen::{has_policy, policy};
use crate::group::Group;
use crate::http;
use crate::page::{examples, has_hospital, page};
use fochillun_client::{
    Address, Call, Client, Consistency, Error, Evaluation, Place, Rests, Semantic, Subject,
    SubjectKind, Why,
};
use serde_json::{json, Value};
use std::path::{Path, PathBuf};
use std::process::Command;
use std::sync::{Arc, Mutex};
use std::time::Duration;
use tempfile::TempDir;
use tokio::io::{AsyncBufReadExt, AsyncReadExt, AsyncWriteExt, BufReader};
use tokio::net::{UnixListener, UnixStream};

fn at(socket: &Path) -> Address {
    Address::Unix(socket.to_owned())
}

/// A client of a group's first member, which has the policy.
async fn asked() -> (Group, Client) {
    let group = Group::started(1);
    has_policy(&mut http::Client::of(&group).await).await;
    let client = Client::of(vec![at(&group.socket(1))]);
    (group, client)
}

fn add(user: &str) -> Vec<Value> {
    vec![json!({ "name": "AddUser", "user": user })]
}

fn reads(resource: &str) -> Evaluation {
    Evaluation::of(Subject::session("s1"), "read", resource)
}

#[tokio::test]
async fn a_client_is_told_what_the_process_tells() {
    let (_group, client) = asked().await;
    let rests = Rests::default();
    for (subject, action, word) in [
        (Subject::session("s1"), "read", None),
        (Subject::user("ann"), "read", None),
        (Subject::user_in("ann", "s1"), "read", None),
        (Subject::user_in("bob", "s1"), "read", Some("NotOwner")),
        (Subject::session("s1"), "write", Some("Refused")),
        (Subject::session("s 1\r\n"), "read", Some("BadName")),
    ] {
        for consistency in [Consistency::Ordered, Consistency::Local] {
            let rests = Rests {
                consistency: Some(consistency),
                ..Rests::default()
            };
            let asked = Evaluation::of(subject.clone(), action, "chart");
            let told = client.evaluate(&asked, &rests).await.unwrap();
            let reason = told.reason.as_ref().map(|reason| reason.word.as_str());
            assert_eq!((told.is_granted(), reason), (word.is_none(), word));
        }
    }
    for limit in [1, 2, 1000] {
        let search = client.search_resources(&Subject::user("ann"), "read", &rests);
        let found = search.with_limit(limit).all().await.unwrap();
        assert_eq!(found, ["chart", "rota"]);
    }
    let search = client.search_actions(&Subject::session("s1"), "chart", &rests);
    assert_eq!(search.all().await.unwrap(), ["read"]);
    for (kind, found) in [(SubjectKind::Session, "s1"), (SubjectKind::User, "ann")] {
        let search = client.search_subjects(kind, "read", "chart", &rests);
        assert_eq!(search.all().await.unwrap(), [found]);
    }
    let status = client.status().await.unwrap();
    assert_eq!(status["node"], "n1");
}

#[tokio::test]
async fn a_list_is_told_in_order_and_cut() {
    let (_group, client) = asked().await;
    let rests = Rests::default();
    let list = [reads("chart"), reads("moon"), reads("chart")];
    for (semantic, wanted) in [
        (Semantic::ExecuteAll, &[true, false, true][..]),
        (Semantic::DenyOnFirstDeny, &[true, false]),
        (Semantic::PermitOnFirstPermit, &[true]),
    ] {
        let told = client.evaluations(&list, semantic, &rests).await.unwrap();
        let granted: Vec<bool> = told.iter().map(|it| it.is_granted()).collect();
        assert_eq!(granted, wanted);
    }
    let none = client.evaluations(&[], Semantic::ExecuteAll, &rests).await;
    assert!(matches!(none.unwrap_err().why, Why::NotAsked(_)));
}

#[tokio::test]
async fn a_call_is_carried_out_once_by_its_id() {
    let (_group, client) = asked().await;
    let call = || Call::of(add("eve")).with_key("k1");
    let first = client.submit(call()).await.unwrap();
    assert_eq!(client.submit(call()).await.unwrap(), first);
    assert_eq!((first[0].answer.as_str(), first.len()), (Some("Done"), 1));
    let denied = client.submit(Call::of(add("eve"))).await.unwrap().remove(0);
    assert_eq!(denied.denial().unwrap().word, "UserExists");
    let rests = Rests {
        at_least: Some(denied.at()),
        ..Rests::default()
    };
    let dump = client.dump(&rests).await.unwrap();
    assert!(dump.commands.contains(&first[0].command));
    let other = client.submit(Call::of(add("joe")).with_key("k1")).await;
    let other = other.unwrap_err();
    assert_eq!(
        (other.status(), other.word()),
        (Some(422), Some("OtherCommands"))
    );
    assert_eq!((other.key.as_deref(), other.place), (Some("k1"), None));
    let named = Call::of(vec![json!({})]).with_request_id("r-3");
    let wrong = client.submit(named).await.unwrap_err();
    assert_eq!((wrong.status(), &wrong.request_id[..]), (Some(400), "r-3"));
    let unsendable = Call::of(add("joe")).with_key("a b");
    let unsendable = client.submit(unsendable).await.unwrap_err();
    assert!(matches!(unsendable.why, Why::NotAsked(_)));
}

/// Stands before a process, and tells of each reply the first so many bytes alone.
struct Between {
    folder: TempDir,
    requests: Arc<Mutex<Vec<String>>>,
}

impl Between {
    fn of(process: PathBuf, most: impl Fn(usize, &str) -> usize + Send + 'static) -> Between {
        let folder = tempfile::tempdir().unwrap();
        let listener = UnixListener::bind(folder.path().join("between")).unwrap();
        let requests = Arc::new(Mutex::new(Vec::new()));
        let seen = Arc::clone(&requests);
        tokio::spawn(async move {
            while let Ok((stream, _)) = listener.accept().await {
                let Some((stream, text)) = read_request(stream).await else {
                    continue;
                };
                let number = {
                    let mut seen = seen.lock().unwrap();
                    seen.push(text.clone());
                    seen.len()
                };
                let most = most(number, &text);
                tokio::spawn(pass_on(stream, process.clone(), text, most));
            }
        });
        Between { folder, requests }
    }

    /// One that knows it by two addresses.
    fn client(&self) -> Client {
        let address = at(&self.folder.path().join("between"));
        Client::of(vec![address.clone(), address])
    }

    fn count(&self) -> usize {
        self.requests.lock().unwrap().len()
    }
}

async fn read_request(stream: UnixStream) -> Option<(UnixStream, String)> {
    let mut stream = BufReader::new(stream);
    let (mut text, mut length) = (String::new(), 0);
    while !text.ends_with("\r\n\r\n") {
        let from = text.len();
        if stream.read_line(&mut text).await.ok()? == 0 {
            return None;
        }
        if let Some(told) = text[from..].strip_prefix("content-length: ") {
            length = told.trim().parse().unwrap();
        }
    }
    let mut body = vec![0; length];
    stream.read_exact(&mut body).await.ok()?;
    text.push_str(&String::from_utf8(body).unwrap());
    Some((stream.into_inner(), text))
}

async fn pass_on(mut stream: UnixStream, process: PathBuf, text: String, most: usize) {
    let text = text.replacen("\r\n\r\n", "\r\nconnection: close\r\n\r\n", 1);
    let mut process = UnixStream::connect(process).await.unwrap();
    process.write_all(text.as_bytes()).await.unwrap();
    let mut told = process.take(most as u64);
    let _ = tokio::io::copy(&mut told, &mut stream).await;
}

#[tokio::test]
async fn a_reply_that_is_lost_is_asked_for_again_by_its_id_alone() {
    let (group, client) = asked().await;
    let between = Between::of(group.socket(1), |number, _| match number {
        1..=4 => 60,
        _ => usize::MAX,
    });
    let through = between.client();
    let lost = through.evaluate(&reads("chart"), &Rests::default()).await;
    assert!(matches!(lost.unwrap_err().why, Why::ReplyLost(_)));
    assert_eq!(between.count(), 1);
    let call = Call::of(add("eve")).with_deadline(Duration::ZERO);
    let lost = through.submit(call).await.unwrap_err();
    let place = Place {
        generation: 1,
        member: 1,
    };
    assert_eq!((between.count(), lost.place), (3, Some(place)));
    let again = Call::of(add("eve")).with_key(&lost.key.unwrap()).at(place);
    let told = through.submit(again.clone()).await.unwrap();
    assert_eq!(
        (told[0].answer.as_str(), between.count()),
        (Some("Done"), 5)
    );
    assert_eq!(client.submit(again).await.unwrap(), told);
}

#[tokio::test]
async fn a_history_is_told_whole_and_once_and_in_the_next_generation() {
    let (group, client) = asked().await;
    let between = Between::of(group.socket(1), |number, text| {
        match text.contains("/v1/history") {
            true => 150 + 37 * number,
            false => usize::MAX,
        }
    });
    let through = between.client();
    let mut history = through.history(1, None);
    let mut told = Vec::new();
    for _ in 0..9 {
        told.push(history.next().await.unwrap());
    }
    let commands: Vec<&Value> = told.iter().map(|record| &record.command).collect();
    assert_eq!(json!(commands), policy());
    assert!(between.count() > 5, "{}", between.count());
    propose_the_same(&group);
    let joe = client.submit(Call::of(add("joe"))).await.unwrap();
    assert_eq!(
        (joe[0].answer.as_str(), joe[0].generation),
        (Some("Done"), 2)
    );
    let mut numbers = Vec::new();
    loop {
        let record = history.next().await.unwrap();
        assert_eq!(record.generation, 2);
        numbers.push(record.number.unwrap());
        if record.command == joe[0].command {
            break;
        }
    }
    let all: Vec<u64> = (1..=numbers.len() as u64).collect();
    assert_eq!(numbers, all);
    let gone = client.history(1, Some(7)).next().await.unwrap_err();
    assert_eq!(gone.status(), Some(410));
}

fn propose_the_same(group: &Group) {
    let file = group.folder().join("next.toml");
    let founding = std::fs::read_to_string(group.founding()).unwrap() + "# the same\n";
    std::fs::write(&file, founding).unwrap();
    let mut propose = Command::new(env!("CARGO_BIN_EXE_fochillund"));
    propose.arg("propose").arg("--folder").arg(group.folder());
    let proposed = propose.arg("--founding").arg(&file).output().unwrap();
    assert!(proposed.status.success(), "{proposed:?}");
}

#[tokio::test]
async fn another_process_is_asked_where_one_is_not_there() {
    let mut group = Group::of(2);
    for member in [1, 2] {
        group.start(member, &["--patience", "0.2"]);
    }
    has_policy(&mut http::Client::of(&group).await).await;
    http::Client::at(&group.socket(2)).await;
    let gone = at(&group.folder().join("gone"));
    let client = Client::of(vec![gone.clone(), at(&group.socket(2))]);
    let rests = Rests::default();
    let told = client.evaluate(&reads("chart"), &rests).await.unwrap();
    assert!(told.is_granted());
    // Nobody has told it that the second address is member 2.
    let told = client.submit(Call::of(add("eve"))).await.unwrap();
    assert_eq!(
        (told[0].answer.as_str(), told[0].stamp.1),
        (Some("Done"), 2)
    );
    let nobody = Client::of(vec![gone]);
    let unreached = nobody.evaluate(&reads("chart"), &rests).await;
    assert!(matches!(unreached.unwrap_err().why, Why::Unreachable(_)));
    group.kill(2);
    let both = Client::of(vec![at(&group.socket(2)), at(&group.socket(1))]);
    let call = Call::of(add("joe")).with_deadline(Duration::from_millis(500));
    let waits = both.submit(call).await.unwrap_err();
    assert_eq!((waits.status(), waits.word()), (Some(503), Some("Waits")));
    group.start(2, &["--patience", "0.2"]);
    // It is asked first then, and is another member.
    http::Client::at(&group.socket(2)).await;
    let again = Call::of(add("joe")).with_key(&waits.key.unwrap());
    let told = both.submit(again.at(waits.place.unwrap())).await.unwrap();
    // At the other member it would be another call, and denied.
    assert_eq!(
        (told[0].answer.as_str(), told[0].stamp.1),
        (Some("Done"), 1)
    );
}

async fn told_by(text: &'static str) -> Result<bool, Error> {
    let folder = tempfile::tempdir().unwrap();
    let listener = UnixListener::bind(folder.path().join("s")).unwrap();
    tokio::spawn(async move {
        let (stream, _) = listener.accept().await.unwrap();
        let (mut stream, _) = read_request(stream).await.unwrap();
        stream.write_all(text.as_bytes()).await.unwrap();
    });
    let client = Client::of(vec![at(&folder.path().join("s"))]);
    let told = client.evaluate(&reads("chart"), &Rests::default()).await;
    told.map(|told| told.is_granted())
}

#[tokio::test]
async fn what_is_no_answer_is_an_error() {
    for text in [
        "",
        "SSH-2.0\r\n\r\n",
        "HTTP/1.1 200 OK\r\ncontent-length: 2\r\n\r\n{}",
        "HTTP/1.1 200 OK\r\ncontent-length: 14\r\n\r\n{\"decision\":1}",
        "HTTP/1.1 200 OK\r\ncontent-length: 19\r\n\r\n{\"decision\":\"true\"}",
        "HTTP/1.1 200 OK\r\ncontent-length: 18\r\n\r\n{\"decision\":true}",
        "HTTP/1.1 200 OK\r\ncontent-length: 17\r\nx-request-id: another\r\n\r\n{\"decision\":true}",
        "HTTP/1.1 204 No Content\r\n\r\n",
        "HTTP/1.1 302 Found\r\ncontent-length: 17\r\nlocation: /\r\n\r\n{\"decision\":true}",
        "HTTP/1.1 403 Forbidden\r\ncontent-length: 17\r\n\r\n{\"decision\":true}",
        "HTTP/1.1 500 Error\r\ncontent-length: 17\r\n\r\n{\"decision\":true}",
    ] {
        assert!(told_by(text).await.is_err(), "{text}");
    }
    let granted = "HTTP/1.1 200 OK\r\ncontent-length: 17\r\n\r\n{\"decision\":true}";
    assert!(told_by(granted).await.unwrap());
}

/// What docs/API.md shows, but for the address.
async fn shown(address: &str) -> Result<(), Box<dyn std::error::Error>> {
    let client = Client::of(vec![address.parse()?]);
    let commands = vec![json!({ "name": "AddUser", "user": "omar" })];
    let omar = client.submit(Call::of(commands)).await?.remove(0);
    let rests = Rests {
        at_least: Some(omar.at()),
        ..Rests::default()
    };
    let asked = Evaluation::of(Subject::session("round"), "prescribe", "drug");
    assert!(client.evaluate(&asked, &rests).await?.is_granted());
    Ok(())
}

#[tokio::test]
async fn what_the_page_shows_is_so() {
    let mut group = Group::of(1);
    has_hospital(&group);
    group.start(1, &[]);
    let mut owner = http::Client::of(&group).await;
    let first = examples().remove(0);
    let told = owner.ask(first.method, &first.path, &[], &first.body).await;
    assert_eq!(told.status, 200);
    shown(&at(&group.socket(1)).to_string()).await.unwrap();
    let plain = |text: &str| text.replace(char::is_whitespace, "").replace(",}", "}");
    let page = page();
    let block = page.split("```rust\n").nth(1).unwrap();
    let block = block.split("```").next().unwrap();
    let block = block.replace("\"unix:hospital.group/n1.sock\"", "address");
    assert!(plain(include_str!("client.rs")).contains(&plain(&block)));
}
