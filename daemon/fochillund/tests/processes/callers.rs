//! What callers are told.
use crate::group::Group;
use hyper::client::conn::handshake;
use hyper::{Body, Method, Request};
use serde_json::{json, Value};
use std::path::PathBuf;
use std::process::Child;
use std::time::Duration;
use tokio::net::UnixStream;

const ANN: &str = r#"[{"name":"AddUser","user":"ann"}]"#;

async fn connected(group: &Group, member: u32) -> UnixStream {
    loop {
        match UnixStream::connect(group.socket(member)).await {
            Ok(stream) => return stream,
            Err(_) => tokio::time::sleep(Duration::from_millis(10)).await,
        }
    }
}

/// What a member answers: the status and the body.
async fn told(group: &Group, member: u32, method: Method, path: &str, body: &str) -> (u16, Value) {
    let stream = connected(group, member).await;
    let (mut sender, connection) = handshake(stream).await.unwrap();
    tokio::spawn(connection);
    let request = Request::builder().method(method).uri(path);
    let request = request.body(Body::from(body.to_owned())).unwrap();
    let response = sender.send_request(request).await.unwrap();
    let status = response.status().as_u16();
    let body = hyper::body::to_bytes(response.into_body()).await.unwrap();
    (status, serde_json::from_slice(&body).unwrap())
}

fn call(member: u32, id: Option<&str>, commands: &str) -> String {
    let commands: Value = serde_json::from_str(commands).unwrap();
    json!({ "generation": 1, "member": member, "id": id, "commands": commands }).to_string()
}

async fn post(group: &Group, member: u32, body: &str) -> (u16, Value) {
    told(group, member, Method::POST, "/v1/commands", body).await
}

fn answers(told: &(u16, Value)) -> Vec<Value> {
    assert_eq!(told.0, 200, "{}", told.1);
    let records = told.1["records"].as_array().unwrap();
    records
        .iter()
        .map(|record| record["answer"].clone())
        .collect()
}

/// The status with which a process ends, within a minute.
pub fn ended(mut process: Child) -> Option<i32> {
    ended_of(&mut process)
}

fn ended_of(process: &mut Child) -> Option<i32> {
    for _ in 0..6000 {
        if let Some(status) = process.try_wait().unwrap() {
            return status.code();
        }
        std::thread::sleep(Duration::from_millis(10));
    }
    process.kill().unwrap();
    process.wait().unwrap();
    panic!("it does not end");
}

#[tokio::test]
async fn a_call_is_answered_by_the_records_of_its_commands() {
    let group = Group::started(2);
    let two = r#"[{"name":"AddUser","user":"ann"},{"name":"AddUser","user":"ann"}]"#;
    let first = post(&group, 1, &call(1, None, two)).await;
    let exists = json!({ "denied": "UserExists", "number": 1 });
    assert_eq!(answers(&first), [json!("Done"), exists.clone()]);
    let second = post(&group, 2, &call(2, None, ANN)).await;
    assert_eq!(answers(&second), [exists]);
    let records = told(&group, 2, Method::GET, "/v1/records?from=2", "").await;
    assert_eq!(records.1["records"][0], first.1["records"][1]);
    assert_eq!(records.1["records"][1], second.1["records"][0]);
    let state = told(&group, 2, Method::GET, "/v1/state", "").await.1;
    assert_eq!(
        (&state["records"], &state["node"]),
        (&json!(3), &json!("n2"))
    );
}

#[tokio::test]
async fn a_call_that_is_asked_again_is_carried_out_once() {
    let mut group = Group::started(2);
    let named = call(1, Some("a"), ANN);
    let first = post(&group, 1, &named).await;
    assert_eq!(answers(&first), ["Done"]);
    assert_eq!(post(&group, 1, &named).await, first);
    let spaced = named.replace("{\"name\"", "{  \"name\"");
    assert_eq!(post(&group, 1, &spaced).await, first);
    group.kill(1);
    group.start(1, &[]);
    assert_eq!(post(&group, 1, &named).await, first);
    let other = call(1, Some("a"), r#"[{"name":"AddUser","user":"bob"}]"#);
    let refused = post(&group, 1, &other).await;
    assert_eq!(
        (refused.0, &refused.1["error"]),
        (422, &json!("OtherCommands"))
    );
    let records = told(&group, 1, Method::GET, "/v1/records", "").await;
    assert_eq!(records.1["records"].as_array().unwrap().len(), 1);
}

#[tokio::test]
async fn what_is_asked_wrongly_is_refused_and_not_carried_out() {
    let group = Group::started(1);
    let commands = |commands: &str| call(1, None, commands);
    let many = format!(
        "[{}]",
        vec![r#"{"name":"AddRole","role":"r"}"#; 65].join(",")
    );
    let long = commands(ANN).replacen("\"id\":null", &format!("\"id\":\"{}\"", "i".repeat(129)), 1);
    let elsewhere = |from: &str, to: &str| commands(ANN).replacen(from, to, 1);
    let cases = [
        (commands("[]"), 400, "BadBatch"),
        (commands(&many), 400, "BadBatch"),
        (
            commands(r#"[{"name":"AddUsr","user":"ann"}]"#),
            400,
            "UnknownWord",
        ),
        (commands(r#"[{"name":"AddUser"}]"#), 400, "MissingField"),
        (
            commands(r#"[{"name":"AddUser","user":"a b"}]"#),
            400,
            "BadName",
        ),
        (commands("{}"), 400, "WrongKind"),
        ("{".to_owned(), 400, "BadRequest"),
        ("{}".to_owned(), 400, "BadRequest"),
        (long, 400, "BadRequest"),
        (" ".repeat((1 << 20) + 1), 413, "TooLong"),
        (
            elsewhere("\"generation\":1", "\"generation\":0"),
            410,
            "OldGeneration",
        ),
        (
            elsewhere("\"generation\":1", "\"generation\":2"),
            409,
            "NoGeneration",
        ),
        (
            elsewhere("\"member\":1", "\"member\":2"),
            421,
            "OtherMember",
        ),
    ];
    for (body, status, error) in cases {
        let refused = post(&group, 1, &body).await;
        let shown = &body[..body.len().min(100)];
        assert_eq!(
            (refused.0, &refused.1["error"]),
            (status, &json!(error)),
            "{shown}"
        );
    }
    let state = told(&group, 1, Method::GET, "/v1/state", "").await.1;
    assert_eq!(state["taken"], json!([0]));
    let paths = [
        (Method::GET, "/", 404),
        (Method::PUT, "/v1/commands", 405),
        (Method::GET, "/v1/records?from=0", 400),
        (Method::GET, "/v1/records?to=1", 400),
    ];
    for (method, path, status) in paths {
        assert_eq!(told(&group, 1, method, path, "").await.0, status, "{path}");
    }
}

#[tokio::test]
async fn who_waits_is_told_for_whom_and_asks_again() {
    let mut group = Group::of(2);
    group.start(1, &["--patience", "1"]);
    let named = call(1, Some("a"), ANN);
    let waits = post(&group, 1, &named).await;
    assert_eq!((waits.0, &waits.1["error"]), (503, &json!("Waits")));
    assert_eq!(
        (&waits.1["stands"], &waits.1["waits_for"]),
        (&json!(true), &json!(["n2"]))
    );
    group.start(2, &[]);
    assert_eq!(answers(&post(&group, 1, &named).await), ["Done"]);
}

#[tokio::test]
async fn a_second_process_of_a_member_waits_politely() {
    let mut group = Group::started(1);
    assert_eq!(
        answers(&post(&group, 1, &call(1, None, ANN)).await),
        ["Done"]
    );
    let mut second = group.spawn(1, &[]);
    tokio::time::sleep(Duration::from_millis(300)).await;
    assert_eq!(second.try_wait().unwrap(), None);
    let state = told(&group, 1, Method::GET, "/v1/state", "").await.1;
    assert_eq!(state["process"], group.process(1).unwrap().id());
    group.kill(1);
    let process = loop {
        if let Ok(state) = group.client().state(1).await {
            break state.process;
        }
    };
    assert_eq!(process, second.id());
    second.kill().unwrap();
    second.wait().unwrap();
}

#[tokio::test]
async fn a_process_that_another_one_has_replaced_is_fenced() {
    let mut group = Group::started(1);
    assert_eq!(
        answers(&post(&group, 1, &call(1, None, ANN)).await),
        ["Done"]
    );
    let moved = group.folder().join("first.sock");
    std::fs::rename(group.socket(1), &moved).unwrap();
    group.start_elsewhere(1);
    let bob = r#"[{"name":"AddUser","user":"bob"}]"#;
    assert_eq!(
        answers(&post(&group, 1, &call(1, None, bob)).await),
        ["Done"]
    );
    let stream = UnixStream::connect(&moved).await.unwrap();
    let (mut sender, connection) = handshake(stream).await.unwrap();
    tokio::spawn(connection);
    let cat = call(1, None, r#"[{"name":"AddUser","user":"cat"}]"#);
    let request = Request::post("/v1/commands").body(Body::from(cat)).unwrap();
    if let Ok(told) = sender.send_request(request).await {
        assert_eq!(told.status(), 503);
    }
    assert_eq!(ended_of(group.first_process(1)), Some(3));
    let records = group.client().records(1, 1).await.unwrap();
    assert_eq!(records.len(), 2);
}

#[tokio::test]
async fn a_process_that_is_asked_nothing_sees_that_it_was_replaced() {
    let mut group = Group::started(1);
    assert_eq!(
        answers(&post(&group, 1, &call(1, None, ANN)).await),
        ["Done"]
    );
    group.start_elsewhere(1);
    let second = group.process(1).unwrap().id();
    while group.client().state(1).await.unwrap().process != second {}
    let bob = r#"[{"name":"AddUser","user":"bob"}]"#;
    assert_eq!(
        answers(&post(&group, 1, &call(1, None, bob)).await),
        ["Done"]
    );
    assert_eq!(ended_of(group.first_process(1)), Some(3));
}

#[tokio::test]
async fn a_member_is_moved_by_one_command() {
    let mut group = Group::started(2);
    let first = group.process(1).unwrap().id();
    assert_eq!(
        answers(&post(&group, 1, &call(1, Some("a"), ANN)).await),
        ["Done"]
    );
    // The other machine has a folder of its own, and the same rows.
    let there = tempfile::tempdir().unwrap();
    let rows = group.folder().to_str().unwrap().to_owned();
    let more = ["--rows", &rows, "--take-over"];
    let mut moved = group.spawn_in(there.path(), 1, &more);
    assert_eq!(ended_of(group.first_process(1)), Some(3));
    let mut client = fochillund::ask::Members::of(there.path(), Duration::from_secs(60));
    let told = client.call(1, "a", ANN).await.unwrap();
    assert_eq!(told.0.as_u16(), 200);
    let state = client.state(1).await.unwrap();
    assert_eq!(state.process, moved.id());
    assert_ne!(state.process, first);
    // The cell by which it took the member over has no command.
    let records = client.records(1, 1).await.unwrap();
    let told: Vec<&str> = records.iter().map(|record| record.get()).collect();
    assert_eq!(told.len(), 1);
    assert!(told[0].contains("AddUser"));
    moved.kill().unwrap();
    moved.wait().unwrap();
}

/// Asks a member again and again, until its socket is gone.
async fn ask_on(folder: PathBuf, caller: u32) {
    let mut client = fochillund::ask::Members::of(&folder, Duration::ZERO);
    for call in 0.. {
        let id = format!("{caller} {call}");
        if client.call(1, &id, ANN).await.is_err() {
            return;
        }
    }
}

#[tokio::test]
async fn a_member_that_is_asked_much_is_moved_by_one_command() {
    let mut group = Group::started(1);
    assert_eq!(
        answers(&post(&group, 1, &call(1, Some("a"), ANN)).await),
        ["Done"]
    );
    let asking = |caller| tokio::spawn(ask_on(group.folder().to_owned(), caller));
    let asking: Vec<_> = (0..16).map(asking).collect();
    let there = tempfile::tempdir().unwrap();
    let rows = group.folder().to_str().unwrap().to_owned();
    let more = ["--rows", &rows, "--take-over"];
    let mut moved = group.spawn_in(there.path(), 1, &more);
    // Their socket goes with the old process.
    let all = async {
        for each in asking {
            each.await.unwrap();
        }
    };
    let ended = tokio::time::timeout(Duration::from_secs(60), all).await;
    assert!(ended.is_ok(), "the old process goes on");
    assert_eq!(ended_of(group.first_process(1)), Some(3));
    let mut client = fochillund::ask::Members::of(there.path(), Duration::from_secs(60));
    let told = client.call(1, "b", ANN).await.unwrap();
    assert_eq!(told.0.as_u16(), 200);
    assert_eq!(client.state(1).await.unwrap().process, moved.id());
    moved.kill().unwrap();
    moved.wait().unwrap();
}

#[tokio::test]
async fn a_process_with_another_founding_stops() {
    let mut group = Group::started(1);
    assert_eq!(
        answers(&post(&group, 1, &call(1, None, ANN)).await),
        ["Done"]
    );
    group.kill(1);
    let founding = std::fs::read_to_string(group.founding()).unwrap();
    std::fs::write(group.founding(), founding.clone() + "# more\n").unwrap();
    assert_eq!(ended(group.spawn(1, &[])), Some(2));
    std::fs::write(group.founding(), founding).unwrap();
}

#[tokio::test]
async fn a_sync_that_fails_ends_the_process_before_anybody_is_told() {
    let group = Group::of(1);
    let row = group.folder().join("n1/g1.row");
    std::fs::create_dir(row.parent().unwrap()).unwrap();
    std::fs::write(&row, "").unwrap();
    let failing = "inject=fdatasync:error=EIO";
    let words = [
        "strace",
        "-f",
        "-qq",
        "-o",
        "/dev/null",
        "-e",
        failing,
        "-P",
    ];
    let words = [&words[..], &[row.to_str().unwrap()]].concat();
    let process = group.spawn_by(&words, 1, &[]);
    let stream = connected(&group, 1).await;
    let (mut sender, connection) = handshake(stream).await.unwrap();
    tokio::spawn(connection);
    let asked = Request::post("/v1/commands").body(Body::from(call(1, None, ANN)));
    if let Ok(told) = sender.send_request(asked.unwrap()).await {
        assert_eq!(told.status(), 503);
    }
    assert_eq!(ended(process), Some(5));
}

/// A process of the first member that has no file of more than so many bytes.
fn limited(group: &Group, bytes: u32, more: &[&str]) -> Child {
    // What it says would be too much for its file too.
    let run = format!("exec prlimit --fsize={bytes}: \"$0\" \"$@\"");
    let words = format!("trap '' XFSZ; {run} > /dev/null 2>&1");
    group.spawn_by(&["sh", "-c", &words], 1, more)
}

fn give_room(process: &Child) {
    let words = ["--pid", &process.id().to_string(), "--fsize=unlimited:"];
    let given = std::process::Command::new("prlimit").args(words).status();
    assert!(given.unwrap().success());
}

#[tokio::test]
async fn a_group_is_founded_once_there_is_room() {
    let group = Group::of(1);
    let mut process = limited(&group, 16, &[]);
    tokio::time::sleep(Duration::from_millis(1500)).await;
    assert_eq!(process.try_wait().unwrap(), None);
    assert!(!group.socket(1).exists());
    give_room(&process);
    assert_eq!(
        answers(&post(&group, 1, &call(1, None, ANN)).await),
        ["Done"]
    );
    process.kill().unwrap();
    process.wait().unwrap();
}

#[tokio::test]
async fn a_member_whose_rows_are_full_goes_on_once_there_is_room() {
    let group = Group::of(1);
    let mut process = limited(&group, 4096, &["--patience", "1"]);
    connected(&group, 1).await;
    let mut asked = 0;
    let waits = loop {
        let told = post(&group, 1, &call(1, Some(&asked.to_string()), ANN)).await;
        if told.0 != 200 {
            break told;
        }
        asked += 1;
        assert!(asked < 100, "a row of 4096 bytes has so many cells");
    };
    assert_eq!((waits.0, &waits.1["error"]), (503, &json!("Waits")));
    assert_eq!(waits.1["engine"]["condition"], json!("full"));
    give_room(&process);
    let told = post(&group, 1, &call(1, Some(&asked.to_string()), ANN)).await;
    assert_eq!(told.0, 200);
    let state = told_state(&group).await;
    assert_eq!(state["engine"]["condition"], json!("answers"));
    assert_eq!(state["records"], json!(asked + 1));
    process.kill().unwrap();
    process.wait().unwrap();
}

async fn told_state(group: &Group) -> Value {
    told(group, 1, Method::GET, "/v1/state", "").await.1
}

#[tokio::test]
async fn a_row_that_lost_its_end_stops_who_took_it() {
    let mut group = Group::started(2);
    for member in [1, 2] {
        let told = post(&group, member, &call(member, None, ANN)).await;
        assert_eq!(told.0, 200);
    }
    (1..=2).for_each(|member| group.kill(member));
    for file in ["n1/g1.row", "n1/g1.mark"] {
        std::fs::write(group.folder().join(file), "").unwrap();
    }
    assert_eq!(ended(group.spawn(2, &[])), Some(4));
}
