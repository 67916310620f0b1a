//! The decision log, and its replay.
use crate::access::Known;
use crate::authzen::{evaluation, has_policy};
use crate::group::Group;
use crate::http::{bearer, Client};
use hyper::Method;
use serde_json::{json, Value};
use std::path::Path;
use std::process::{Command, Output};

fn replayed(group: &Group, history: &Path, log: &Path) -> Output {
    let mut command = Command::new(env!("CARGO_BIN_EXE_fochillund"));
    command.args(["replay", "--founding"]).arg(group.founding());
    command
        .arg("--history")
        .arg(history)
        .arg(log)
        .output()
        .unwrap()
}

#[tokio::test]
async fn each_decision_has_a_line_that_is_right() {
    let (known, tokens) = {
        let mut known = Known::unstarted(&crate::group::founding(1));
        let token = known.issue("clinic", &["--scopes", "check,review,session,administer"]);
        let log = known.group.folder().join("decisions").display().to_string();
        known.start(&["--decision-log", &log, "--decision-log-required"]);
        (known, vec![token])
    };
    let group = &known.group;
    let mut owner = Client::of(group).await;
    has_policy(&mut owner).await;
    let mut client = known.client().await;
    let (name, value) = bearer(&tokens[0]);
    let mut of_bob = evaluation("user", "bob", "read", "chart");
    of_bob["context"] = json!({ "session": "s1" });
    let questions = [
        evaluation("session", "s1", "read", "chart"),
        evaluation("session", "s1", "write", "chart"),
        evaluation("user", "ann", "read", "rota"),
        of_bob,
        evaluation("session", "a b", "read", "chart"),
        evaluation("session", "s9", "read", "chart"),
    ];
    for by in ["local", "ordered"] {
        for asked in &questions {
            for route in ["evaluation", "search/action", "search/resource"] {
                let path = format!("/access/v1/{route}?consistency={by}");
                let headers = [(name, value.as_str()), ("x-request-id", "r-7")];
                let told = client
                    .ask(Method::POST, &path, &headers, &asked.to_string())
                    .await;
                assert_eq!(told.status, 200, "{told:?}");
            }
        }
        let all = json!({ "evaluations": questions }).to_string();
        let path = format!("/access/v1/evaluations?consistency={by}");
        let told = client
            .ask(Method::POST, &path, &[(name, &value)], &all)
            .await;
        assert_eq!(told.status, 200, "{told:?}");
        let ends =
            json!({ "command": { "name": "DeleteSession", "user": "ann", "session": "s1" } });
        assert_eq!(owner.post("/v1/commands", &ends).await.status, 200);
    }
    let log = group.folder().join("decisions");
    let text = std::fs::read_to_string(&log).unwrap();
    assert_eq!(text.lines().count(), 9 + 2 * (3 * 6 + 6 + 1));
    assert!(!text.contains(&tokens[0][..16]));
    let line: Value = serde_json::from_str(text.lines().nth(9).unwrap()).unwrap();
    assert_eq!(
        (&line["caller"], &line["request_id"]),
        (&json!("clinic"), &json!("r-7"))
    );
    assert_eq!(
        (&line["decision"], &line["consistency"]),
        (&json!(true), &json!("local"))
    );
    let records = owner.get("/v1/records").await.json();
    let records = records["records"].as_array().unwrap().iter();
    let history = group.folder().join("history");
    let lines: Vec<String> = records.map(|it| it.to_string() + "\n").collect();
    std::fs::write(&history, lines.concat()).unwrap();
    let told = replayed(group, &history, &log);
    let said = String::from_utf8_lossy(&told.stdout).into_owned();
    assert!(told.status.success(), "{said} {told:?}");
    assert!(
        said.contains("59 lines are right, 0 wrong; 0 are of elsewhere"),
        "{said}"
    );
    // A line that is changed is found, whatever it says else.
    let forged = [
        (r#""decision":true"#, r#""decision":false"#),
        (r#""decision":false"#, r#""decision":true"#),
        (r#""answer":"Done""#, r#""answer":"Granted""#),
        (
            r#""number":11,"word":"NotOwner""#,
            r#""number":2,"word":"NoUser""#,
        ),
        (r#""names":["read"]"#, r#""names":["read","write"]"#),
    ];
    for (from, to) in forged {
        assert!(text.contains(from), "{from}");
        std::fs::write(group.folder().join("forged"), text.replacen(from, to, 1)).unwrap();
        let told = replayed(group, &history, &group.folder().join("forged"));
        assert_eq!(told.status.code(), Some(1), "{to}");
    }
}

#[tokio::test]
async fn without_a_line_that_is_required_there_is_no_answer() {
    let mut group = Group::of(1);
    group.start(
        1,
        &["--decision-log", "/dev/full", "--decision-log-required"],
    );
    let mut client = Client::of(&group).await;
    let asked = evaluation("session", "s1", "read", "chart");
    for path in [
        "evaluation",
        "evaluations",
        "search/action",
        "search/resource",
    ] {
        let told = client.post(&format!("/access/v1/{path}"), &asked).await;
        assert_eq!(told.error(), (503, json!("NotLogged")), "{path}");
    }
    let command = json!({ "command": { "name": "AddUser", "user": "ann" } });
    let told = client.post("/v1/commands", &command).await;
    assert_eq!(told.error(), (503, json!("NotLogged")));
    group.kill(1);
    group.start(1, &["--decision-log", "/dev/full"]);
    let mut client = Client::of(&group).await;
    let told = client.post("/access/v1/evaluation", &asked).await;
    assert_eq!(told.status, 200);
    for _ in 0..500 {
        let metrics = client.get("/metrics").await.body;
        if String::from_utf8_lossy(&metrics).contains("decision_log_dropped_total 1") {
            return;
        }
        tokio::time::sleep(std::time::Duration::from_millis(10)).await;
    }
    panic!("the line that was dropped is not counted");
}
