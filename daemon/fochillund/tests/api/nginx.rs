//! A check by a query, and Debian's nginx, which asks it by auth_request as examples/nginx has it.
use crate::authzen::policy;
use crate::group::Group;
use crate::http::{Client, Reply};
use hyper::Method;
use serde_json::{json, Value};
use servers::etcd::free_port;
use std::fs::File;
use std::path::{Path, PathBuf};
use std::process::{Child, Command, Stdio};
use std::time::{Duration, Instant};

const PATIENCE: Duration = Duration::from_secs(60);

/// Ann's session `s1` may read charts, and nothing else; her `idle` and bob's `s2` may do nothing.
async fn group(more: &[&str]) -> (Group, Client) {
    let mut group = Group::of(1);
    group.start(1, more);
    let mut owner = Client::of(&group).await;
    let mut commands = policy();
    let is_of_rota = |command: &Value| command["object"] == "rota";
    commands
        .as_array_mut()
        .unwrap()
        .retain(|it| !is_of_rota(it));
    let told = owner
        .post("/v1/commands", &json!({ "commands": commands }))
        .await;
    assert_eq!(told.status, 200, "{told:?}");
    (group, owner)
}

fn word_of(told: &Reply) -> Value {
    match told.status {
        204 => json!(""),
        403 => told.json()["context"]["reason"]["word"].clone(),
        _ => told.json()["error"].clone(),
    }
}

/// Queries, and what they are told: a status, and the word of a refusal.
const QUERIES: [(&str, u16, &str); 22] = [
    ("session=s1&operation=read&object=chart", 204, ""),
    ("user=ann&session=s1&operation=read&object=chart", 204, ""),
    ("user=ann&operation=read&object=chart", 204, ""),
    (
        "object=ch%61rt&operation=%72ead&session=s%31&at_least=1.1.1",
        204,
        "",
    ),
    ("session=s1&operation=write&object=chart", 403, "Refused"),
    (
        "user=bob&session=s1&operation=read&object=chart",
        403,
        "NotOwner",
    ),
    (
        "user=ann&session=&operation=read&object=chart",
        403,
        "BadName",
    ),
    ("session=s1&operation=read&object=", 403, "BadName"),
    (
        "session=s1&operation=read&object=chart%26object%3Drota",
        403,
        "BadName",
    ),
    ("session=s1&operation=read&object=chart%00", 403, "BadName"),
    ("session=s1&operation=read&object=chart+", 403, "BadName"),
    ("session=s1&operation=read&object=ch%zzrt", 403, "BadName"),
    ("session=s1&operation=read&object=%ff", 400, "BadRequest"),
    ("session=s1&operation=read", 400, "BadRequest"),
    ("session=s1&object=chart", 400, "BadRequest"),
    ("operation=read&object=chart", 400, "BadRequest"),
    (
        "session=s1&operation=read&object=rota&object=chart",
        400,
        "BadRequest",
    ),
    (
        "session=s2&session=s1&operation=read&object=chart",
        400,
        "BadRequest",
    ),
    (
        "session=s1&operation=read&object=chart&consistency=local&consistency=ordered",
        400,
        "BadRequest",
    ),
    (
        "session=s1&operation=read&object=chart&resource=rota",
        400,
        "BadRequest",
    ),
    (
        "session=s1&operation=read&obj%65ct=chart",
        400,
        "BadRequest",
    ),
    ("", 400, "BadRequest"),
];

#[tokio::test]
async fn a_query_is_decided_as_an_evaluation() {
    let (_group, mut client) = group(&[]).await;
    for (query, status, word) in QUERIES {
        for by in ["", "&consistency=local"] {
            let is_said = query.is_empty() || query.contains("consistency");
            let more = if is_said { "" } else { by };
            let told = client.get(&format!("/v1/check?{query}{more}")).await;
            assert_eq!(
                (told.status, word_of(&told)),
                (status, json!(word)),
                "{query}"
            );
            assert_eq!(told.status == 204, told.body.is_empty(), "{query}");
        }
    }
    let metrics = client.get("/metrics").await.body;
    let metrics = String::from_utf8(metrics.to_vec()).unwrap();
    for line in [
        "fochillund_requests_total{route=\"/v1/check\",status=\"204\"} 8",
        "fochillund_decisions_total{decision=\"true\"} 8",
        "fochillund_decisions_total{decision=\"false\"} 16",
    ] {
        assert!(metrics.contains(line), "{line} is not in {metrics}");
    }
}

/// A server in a folder of its own.
struct Nginx {
    folder: PathBuf,
    port: u16,
    process: Child,
}

impl Nginx {
    /// That of the example, before a group.
    fn before(group: &Group) -> Nginx {
        let folder = group.folder().join("nginx");
        std::fs::create_dir_all(folder.join("wards")).unwrap();
        let example = Path::new(env!("CARGO_MANIFEST_DIR")).join("../../examples/nginx/nginx.conf");
        let example = std::fs::read_to_string(example).unwrap();
        let (port, socket) = (free_port(), group.socket(1).display().to_string());
        let put = |text: String, from: &str, to: &str| {
            assert_eq!(text.matches(from).count(), 1, "{from}");
            text.replace(from, to)
        };
        let text = put(example, "/var/lib/fochillun/n1/n1.sock", &socket);
        let text = put(text, "127.0.0.1:8080", &format!("127.0.0.1:{port}"));
        std::fs::write(folder.join("nginx.conf"), text).unwrap();
        std::fs::write(folder.join("users"), "ann:{PLAIN}a\nbob:{PLAIN}b\n").unwrap();
        for file in FILES {
            std::fs::write(folder.join("wards").join(file), file).unwrap();
        }
        let said = File::create(folder.join("said")).unwrap();
        let process = Command::new("nginx")
            .arg("-p")
            .arg(&folder)
            .args(["-e", "error.log", "-c", "nginx.conf"])
            .args(["-g", "daemon off; master_process off;"])
            .stdin(Stdio::null())
            .stdout(said.try_clone().unwrap())
            .stderr(said)
            .spawn();
        Nginx {
            folder,
            port,
            process: process.expect("nginx is started: apt-get install nginx-light"),
        }
    }

    async fn get(&self, path: &str, user: &str, session: &str) -> Reply {
        self.told(Method::GET, path, user, session).await
    }

    /// What is told of a target that is sent as it stands.
    async fn told(&self, method: Method, path: &str, user: &str, session: &str) -> Reply {
        let mut client = Client::to(self.port).await;
        let encoded = base64_of(user.as_bytes());
        let (basic, cookie) = (format!("Basic {encoded}"), format!("session={session}"));
        let headers = [
            ("authorization", basic.as_str()),
            ("cookie", &cookie),
            ("host", "wards"),
        ];
        client.ask(method, path, &headers, "").await
    }
}

impl Drop for Nginx {
    fn drop(&mut self) {
        self.process.kill().unwrap();
        self.process.wait().unwrap();
    }
}

/// Files, some of which nobody could name in a policy.
const FILES: [&str; 7] = [
    "chart",
    "rota",
    "chart#",
    "chart&object=rota",
    "rota&object=chart",
    "chart\n",
    "chart ",
];

fn base64_of(bytes: &[u8]) -> String {
    let mut command = Command::new("base64");
    let child = command
        .arg("-w0")
        .stdin(Stdio::piped())
        .stdout(Stdio::piped());
    let mut child = child.spawn().unwrap();
    std::io::Write::write_all(&mut child.stdin.take().unwrap(), bytes).unwrap();
    String::from_utf8(child.wait_with_output().unwrap().stdout).unwrap()
}

/// The decisions of a log that were granted, once there are so many.
async fn granted(log: &Path, count: usize) -> Vec<Value> {
    let until = Instant::now() + PATIENCE;
    loop {
        let text = std::fs::read_to_string(log).unwrap();
        let lines = text
            .lines()
            .filter_map(|line| serde_json::from_str(line).ok());
        let granted: Vec<Value> = lines
            .filter(|line: &Value| line["decision"] == true)
            .collect();
        if granted.len() >= count {
            return granted;
        }
        assert!(Instant::now() < until, "{count} are not in {text}");
        tokio::time::sleep(Duration::from_millis(10)).await;
    }
}

/// Who would be another user, or ask another question, if its text were a part of the query.
const ODD_USER: &str = "ann&session=s1&operation=read&object=chart#:a";
const ODDER_USER: &str =
    "ann HTTP/1.1\r\n\r\nGET /v1/check?session=s1&operation=read&object=chart HTTP/1.1\r\n\r\n:a";

/// What nobody is let through to: a path, a user with a password, a session, and what is told.
const REFUSED: [(&str, &str, &str, u16); 24] = [
    ("/wards/rota", "ann:a", "s1", 403),
    ("/wards/moon", "ann:a", "s1", 403),
    ("/wards/chart", "ann:a", "idle", 403),
    ("/wards/chart", "ann:a", "", 403),
    ("/wards/chart", "bob:b", "s1", 403),
    ("/wards/chart", "bob:b", "s2", 403),
    // Granted by the policy, and no password of hers.
    ("/wards/chart", "ann:b", "s1", 401),
    ("/wards/chart", "", "s1", 401),
    ("/wards/rota", ODD_USER, "s1", 401),
    ("/wards/rota", ODDER_USER, "s1", 401),
    ("/wards/chart", "ann:a", "s1&operation=read", 403),
    ("/wards/rota", "ann:a", "s1&object=chart#", 403),
    ("/wards/rota?object=chart", "ann:a", "s1", 403),
    ("/wards/chart%23", "ann:a", "s1", 403),
    ("/wards/chart%26object=rota", "ann:a", "s1", 403),
    ("/wards/rota%26object=chart", "ann:a", "s1", 403),
    ("/wards/chart%0a", "ann:a", "s1", 403),
    ("/wards/chart%20", "ann:a", "s1", 403),
    ("/wards/chart%00", "ann:a", "s1", 400),
    ("/wards/chart%20HTTP/1.0%0d%0a%0d%0a", "ann:a", "s1", 404),
    ("/wards/chart/", "ann:a", "s1", 404),
    ("/nginx.conf", "ann:a", "s1", 404),
    ("/check", "ann:a", "s1", 404),
    ("/wards/../check?session=s1", "ann:a", "s1", 404),
];

/// The same file by other spellings of its path.
const SPELLINGS: [&str; 5] = [
    "/wards/%63hart",
    "/wards/./chart",
    "//wards//chart",
    "/wards/chart?object=rota",
    "/wards/rota/../chart",
];

#[tokio::test]
async fn nginx_lets_through_what_is_granted_alone() {
    let log = tempfile::NamedTempFile::new().unwrap();
    let (group, _) = group(&["--decision-log", log.path().to_str().unwrap()]).await;
    let nginx = Nginx::before(&group);
    let told = nginx.get("/wards/chart", "ann:a", "s1").await;
    let said = std::fs::read_to_string(nginx.folder.join("error.log"));
    assert_eq!(
        (told.status, &told.body[..]),
        (200, &b"chart"[..]),
        "{said:?}"
    );
    let line = granted(log.path(), 1).await.pop().unwrap();
    let subject = json!({ "type": "user", "id": "ann", "session": "s1" });
    let evaluation = json!({ "subject": subject, "action": "read", "resource": "chart" });
    assert_eq!(
        (&line["evaluation"], &line["consistency"]),
        (&evaluation, &json!("local"))
    );
    assert_eq!(line["request_id"].as_str().map(str::len), Some(32));
    for path in SPELLINGS {
        let told = nginx.get(path, "ann:a", "s1").await;
        assert_eq!(told.body, "chart", "{path}");
    }
    let head = nginx.told(Method::HEAD, "/wards/chart", "ann:a", "s1");
    assert_eq!(head.await.status, 200);
    for (path, user, session, status) in REFUSED {
        let told = nginx.get(path, user, session).await;
        assert_eq!(told.status, status, "{path} {user} {session}");
    }
    for method in [Method::PUT, Method::POST] {
        let told = nginx.told(method, "/wards/chart", "ann:a", "s1").await;
        assert_eq!(told.status, 403);
    }
    // What is granted at last stands behind all others.
    let last = nginx.get("/wards/chart", "ann:a", "s1").await;
    assert_eq!(last.body, "chart");
    let all = 1 + SPELLINGS.len() + 1 + 1;
    assert_eq!(granted(log.path(), all).await.len(), all);
}

#[tokio::test]
async fn nginx_lets_nothing_through_while_the_process_is_down() {
    let (mut group, _) = group(&[]).await;
    let nginx = Nginx::before(&group);
    let get = || nginx.get("/wards/chart", "ann:a", "s1");
    assert_eq!(get().await.status, 200);
    group.kill(1);
    assert_eq!(get().await.status, 500);
    group.start(1, &[]);
    let mut last = 0;
    for _ in 0..1500 {
        last = get().await.status;
        if last == 200 {
            return;
        }
        assert!([403, 500].contains(&last), "{last}");
        tokio::time::sleep(Duration::from_millis(20)).await;
    }
    panic!("it is not let through again: {last}");
}
