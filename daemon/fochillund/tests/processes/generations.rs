//! Groups of processes that go on with other members and other founding files.
use crate::group::{founding, Group};
use fochillund::ask::Members;
use fochillund::callers::State;
use fochillund::node::Phase;
use hyper::{Body, Method, Request};
use serde_json::{json, Value};
use std::path::Path;
use std::process::{Child, Command, Output};
use std::time::{Duration, Instant};
use tokio::net::UnixStream;

/// What `fochillund` prints for these words.
fn fochillund(words: &[&str]) -> Output {
    let mut command = Command::new(env!("CARGO_BIN_EXE_fochillund"));
    command.args(words).output().unwrap()
}

/// Proposes a generation, and waits until it has begun.
pub fn propose(group: &Group, words: &[&str]) {
    let folder = group.folder().to_str().unwrap();
    let told = fochillund(&[&["propose", "--folder", folder], words].concat());
    let said = String::from_utf8_lossy(&told.stderr).into_owned();
    assert_eq!(told.status.code(), Some(0), "{said}");
    assert!(String::from_utf8_lossy(&told.stdout).contains("has begun"));
}

fn add_user(user: &str) -> String {
    format!(r#"[{{"name":"AddUser","user":"{user}"}}]"#)
}

/// What each record of a call's answer is answered.
pub async fn answers(client: &mut Members, member: u32, id: &str, commands: &str) -> Vec<Value> {
    let (status, body) = client.call(member, id, commands).await.unwrap();
    assert_eq!(status.as_u16(), 200, "{}", String::from_utf8_lossy(&body));
    let told: Value = serde_json::from_slice(&body).unwrap();
    let records = told["records"].as_array().unwrap().iter();
    records.map(|record| record["answer"].clone()).collect()
}

/// Waits until the process at a node is so.
pub async fn state_where(group: &Group, node: &str, is_so: impl Fn(&State) -> bool) -> State {
    let began = Instant::now();
    loop {
        if let Ok(state) = group.client().state_of(node).await {
            if is_so(&state) {
                return state;
            }
        }
        assert!(began.elapsed() < Duration::from_secs(60), "{node} waits");
        tokio::time::sleep(Duration::from_millis(10)).await;
    }
}

async fn asked(socket: &Path, method: Method, path: &str, body: &str) -> (u16, Value) {
    let stream = loop {
        match UnixStream::connect(socket).await {
            Ok(stream) => break stream,
            Err(_) => tokio::time::sleep(Duration::from_millis(10)).await,
        }
    };
    let (mut sender, connection) = hyper::client::conn::handshake(stream).await.unwrap();
    tokio::spawn(connection);
    let request = Request::builder().method(method).uri(path);
    let request = request.body(Body::from(body.to_owned())).unwrap();
    let response = sender.send_request(request).await.unwrap();
    let status = response.status().as_u16();
    let body = hyper::body::to_bytes(response.into_body()).await.unwrap();
    (status, serde_json::from_slice(&body).unwrap())
}

/// A process that follows a group until this goes.
struct Observer {
    process: Child,
    socket: std::path::PathBuf,
}

impl Observer {
    fn of(group: &Group) -> Observer {
        let socket = group.folder().join("observer.socket");
        let mut command = Command::new(env!("CARGO_BIN_EXE_fochillund"));
        command.args(["observe", "--patience", "1", "--folder"]);
        command.arg(group.folder()).arg("--socket").arg(&socket);
        let process = command.spawn().unwrap();
        Observer { process, socket }
    }

    async fn check(&self, at_least: &str) -> (u16, Value) {
        let body = json!({
            "subject": { "type": "session", "id": "s" },
            "action": { "name": "read" },
            "resource": { "type": "record", "id": "chart" },
        });
        let path = format!("/access/v1/evaluation?at_least={at_least}");
        asked(&self.socket, Method::POST, &path, &body.to_string()).await
    }
}

impl Drop for Observer {
    fn drop(&mut self) {
        self.process.kill().unwrap();
        self.process.wait().unwrap();
    }
}

#[tokio::test]
async fn a_dead_node_is_left_out_by_an_operator_and_taken_in_again() {
    let mut group = Group::started(3);
    let mut client = group.client();
    assert_eq!(
        answers(&mut client, 3, "a", &add_user("ann")).await,
        ["Done"]
    );
    group.kill(3);
    let exists = json!({ "denied": "UserExists", "number": 1 });
    propose(&group, &["--leave-out", "n3"]);
    let told = answers(&mut client, 1, "b", &add_user("ann")).await;
    assert_eq!(told, std::slice::from_ref(&exists));
    group.start(3, &[]);
    let state = state_where(&group, "n3", |state| state.generation == 2).await;
    assert_eq!((state.phase, state.member), (Phase::Follows, None));
    propose(&group, &["--take-in", "n3"]);
    let state = state_where(&group, "n3", |state| state.phase == Phase::Serves).await;
    assert_eq!((state.generation, state.member), (3, Some(3)));
    let told = answers(&mut client, 3, "c", &add_user("ann")).await;
    assert_eq!(told, [exists]);
}

#[tokio::test]
async fn a_silent_member_is_left_out_after_its_grace_and_callers_are_answered() {
    let mut group = Group::of(3);
    for member in 1..=3 {
        group.start(member, &["--leave-out-after", "2"]);
    }
    let mut client = group.client();
    assert_eq!(
        answers(&mut client, 3, "a", &add_user("ann")).await,
        ["Done"]
    );
    group.kill(3);
    let began = Instant::now();
    assert_eq!(
        answers(&mut client, 1, "b", &add_user("bob")).await,
        ["Done"]
    );
    assert!(began.elapsed() >= Duration::from_secs(2));
    let state = state_where(&group, "n1", |state| state.generation == 2).await;
    assert_eq!(state.nodes, ["n1", "n2"]);
}

#[tokio::test]
async fn a_policy_that_a_founding_file_denies_is_told_and_nothing_is_proposed() {
    let group = Group::started(1);
    let mut client = group.client();
    let grant = r#"[{"name":"AddRole","role":"r"},{"name":"GrantPermission","operation":"write","object":"rota","role":"r"}]"#;
    assert_eq!(answers(&mut client, 1, "a", grant).await, ["Done", "Done"]);
    let less = founding(1).replace(r#", ["write", "rota"]"#, "");
    let file = group.folder().join("less.toml");
    std::fs::write(&file, &less).unwrap();
    let folder = group.folder().to_str().unwrap();
    let words = [
        "propose",
        "--folder",
        folder,
        "--founding",
        file.to_str().unwrap(),
    ];
    let told = fochillund(&words);
    let said = String::from_utf8(told.stderr).unwrap();
    assert_eq!(told.status.code(), Some(1), "{said}");
    assert!(
        said.contains("GrantPermission") && said.contains("NoPermission"),
        "{said}"
    );
    let revoke = r#"[{"name":"RevokePermission","operation":"write","object":"rota","role":"r"}]"#;
    assert_eq!(answers(&mut client, 1, "b", revoke).await, ["Done"]);
    propose(&group, &["--founding", file.to_str().unwrap()]);
    let denied = json!({ "denied": "NoPermission", "number": 7 });
    let again = grant.replace(r#"{"name":"AddRole","role":"r"},"#, "");
    assert_eq!(answers(&mut client, 1, "c", &again).await, [denied]);
}

#[tokio::test]
async fn who_proposes_wrongly_is_told_why() {
    let group = Group::started(1);
    let folder = group.folder().to_str().unwrap();
    let cases: [(&[&str], &str); 4] = [
        (&["--leave-out", "n9"], "n9 is none of the nodes"),
        (&["--leave-out", "n1"], "a group has 1 to 8 members"),
        (&["--take-in", "n1"], "n1 stands twice"),
        (&["--nodes", "a/b"], "a node's name has"),
    ];
    for (words, why) in cases {
        let told = fochillund(&[&["propose", "--folder", folder], words].concat());
        let said = String::from_utf8(told.stderr).unwrap();
        assert_eq!(told.status.code(), Some(1), "{said}");
        assert!(said.contains(why), "{said}");
    }
    let state = group.client().state(1).await.unwrap();
    assert_eq!(state.generation, 1);
}

#[tokio::test]
async fn who_follows_shows_the_last_command_of_a_group_at_rest_within_a_second() {
    let group = Group::started(3);
    let observer = Observer::of(&group);
    let mut client = group.client();
    let policy = r#"[{"name":"AddUser","user":"ann"},{"name":"AddRole","role":"r"},
        {"name":"AssignUser","user":"ann","role":"r"},
        {"name":"CreateSession","user":"ann","session":"s","roles":["r"]}]"#;
    answers(&mut client, 2, "a", policy).await;
    let grant = r#"[{"name":"GrantPermission","operation":"read","object":"chart","role":"r"}]"#;
    let (_, body) = client.call(3, "b", grant).await.unwrap();
    let told: Value = serde_json::from_slice(&body).unwrap();
    let stamp = &told["records"][0]["stamp"];
    let began = Instant::now();
    let (status, told) = observer
        .check(&format!("1.{}.{}", stamp[0], stamp[1]))
        .await;
    assert_eq!((status, &told["decision"]), (200, &json!(true)), "{told}");
    assert!(began.elapsed() < Duration::from_secs(1));
    assert_eq!(&told["context"]["stamp"], stamp);
    let (status, told) = observer.check(&format!("1.{}.1", 1_u64 << 40)).await;
    assert_eq!((status, &told["error"]), (409, &json!("Behind")));
    assert_eq!(&told["shown"]["stamp"], stamp);
    let (status, told) = asked(&observer.socket, Method::GET, "/v1/dump", "").await;
    assert_eq!(
        (status, told["commands"].as_array().unwrap().len()),
        (200, 5)
    );
    // It is no member, and sets no cell.
    let call = json!({ "generation": 1, "member": 1, "commands": [{ "name": "SsdRoleSets" }] });
    let (status, told) = asked(
        &observer.socket,
        Method::POST,
        "/v1/commands",
        &call.to_string(),
    )
    .await;
    assert_eq!((status, &told["error"]), (421, &json!("OtherMember")));
    propose(&group, &["--leave-out", "n1"]);
    let (status, told) = observer.check("2").await;
    assert_eq!((status, &told["decision"]), (200, &json!(true)), "{told}");
    assert_eq!(told["context"]["generation"], 2);
    let mut rows = std::fs::read_dir(group.folder())
        .unwrap()
        .map(|it| it.unwrap().file_name());
    assert!(rows.all(|name| name.to_str() != Some("observer")));
}
