//! Requests that are mutated: whatever comes, it is answered, what is no grant is not told true, and nothing is left behind.
use crate::authzen::{evaluation, has_policy};
use crate::group::Group;
use crate::http::{request, Client};
use hyper::body::to_bytes;
use hyper::Method;
use rand::rngs::StdRng;
use rand::{Rng, SeedableRng};
use serde_json::{json, Value};

/// How many requests there are, where the environment does not say it (MUTATED).
const REQUESTS: u64 = 4000;

const STATUSES: [u16; 11] = [200, 400, 404, 405, 409, 410, 413, 421, 422, 429, 503];

fn whole(random: &mut StdRng) -> (&'static str, Value) {
    let pick = |random: &mut StdRng, of: &[&'static str]| of[random.gen_range(0..of.len())];
    let kind = pick(random, &["session", "session", "user", "role"]);
    let id = match kind {
        "user" => pick(random, &["ann", "bob"]),
        _ => pick(random, &["s1", "s1", "idle", "s2", "s9"]),
    };
    let mut asked = evaluation(
        kind,
        id,
        pick(random, &["read", "write"]),
        pick(random, &["chart", "rota"]),
    );
    if kind == "user" && random.gen() {
        asked["context"] = json!({ "session": pick(random, &["s1", "s2"]) });
    }
    match random.gen_range(0..8) {
        0 | 1 => {
            let items = (0..random.gen_range(0..5)).map(|_| match random.gen() {
                true => json!({}),
                false => evaluation("session", pick(random, &["s1", "s2"]), "read", "rota"),
            });
            asked["evaluations"] = items.collect();
            let semantic = pick(
                random,
                &[
                    "execute_all",
                    "deny_on_first_deny",
                    "permit_on_first_permit",
                ],
            );
            asked["options"] = json!({ "evaluations_semantic": semantic });
            ("/access/v1/evaluations", asked)
        }
        2 => ("/access/v1/search/action", asked),
        3 => ("/access/v1/search/resource", asked),
        4 => {
            let review = json!({ "name": "UserPermissions", "user": "ann" });
            (
                "/v1/commands",
                json!({ "generation": 1, "member": 1, "id": random.gen::<u32>().to_string(), "commands": [review] }),
            )
        }
        _ => ("/access/v1/evaluation", asked),
    }
}

/// The text with some bytes changed, put in, taken out or doubled.
fn mutated(text: &str, random: &mut StdRng) -> Vec<u8> {
    let mut bytes = text.as_bytes().to_vec();
    for _ in 0..random.gen_range(0..4) {
        if bytes.is_empty() {
            break;
        }
        let at = random.gen_range(0..bytes.len());
        let length = random.gen_range(1..=12.min(bytes.len() - at));
        match random.gen_range(0..6) {
            0 => bytes[at] = random.gen(),
            1 => bytes[at] = b"\"{}[]:,\\0a \n"[random.gen_range(0..12)],
            2 => drop(bytes.drain(at..at + length)),
            3 => {
                let some = bytes[at..at + length].to_vec();
                let to = random.gen_range(0..=bytes.len());
                bytes.splice(to..to, some);
            }
            4 => bytes.insert(at, random.gen()),
            _ => bytes.truncate(at),
        }
    }
    bytes
}

/// What is granted: in session s1, and to ann, reading; each told by nothing of the daemon's.
fn may(asked: &Value) -> bool {
    let text = |value: &Value| value.as_str().map(str::to_owned).unwrap_or_default();
    let (kind, id) = (
        text(&asked["subject"]["type"]),
        text(&asked["subject"]["id"]),
    );
    let session = &asked["context"]["session"];
    let subject = match kind.as_str() {
        "session" => id == "s1",
        "user" if session.is_null() => id == "ann",
        "user" => id == "ann" && session == "s1",
        _ => false,
    };
    let resource = text(&asked["resource"]["id"]);
    subject && asked["action"]["name"] == "read" && ["chart", "rota"].contains(&resource.as_str())
}

/// An evaluation of a list, with what holds of all.
fn filled(all: &Value, one: &Value) -> Value {
    let part = |key: &str| match one[key].is_null() {
        true => all[key].clone(),
        false => one[key].clone(),
    };
    json!({ "subject": part("subject"), "action": part("action"), "resource": part("resource"), "context": part("context") })
}

fn check_told(body: &[u8], told: &Value) {
    let shown = String::from_utf8_lossy(body);
    let asked: Value = serde_json::from_slice(body).unwrap_or(Value::Null);
    if let Some(decision) = told["decision"].as_bool() {
        assert_eq!(decision, may(&asked), "{shown} {told}");
    }
    let decisions = told["evaluations"].as_array().into_iter().flatten();
    for (at, told) in decisions.enumerate() {
        let asked = filled(&asked, &asked["evaluations"][at]);
        assert_eq!(told["decision"], may(&asked), "{shown} {told}");
    }
}

fn files_and_memory(process: u32) -> (usize, u64) {
    let files = std::fs::read_dir(format!("/proc/{process}/fd"))
        .unwrap()
        .count();
    let status = std::fs::read_to_string(format!("/proc/{process}/status")).unwrap();
    let resident = status
        .lines()
        .find_map(|line| line.strip_prefix("VmRSS:"))
        .unwrap();
    (
        files,
        resident.trim().trim_end_matches(" kB").parse().unwrap(),
    )
}

#[tokio::test]
async fn mutated_requests_are_answered_and_grant_nothing_more() {
    let requests = std::env::var("MUTATED").ok().map(|it| it.parse().unwrap());
    let requests: u64 = requests.unwrap_or(REQUESTS);
    let mut group = Group::started(1);
    let mut client = Client::of(&group).await;
    has_policy(&mut client).await;
    let process = group.process(1).unwrap().id();
    let mut random = StdRng::seed_from_u64(7);
    let (mut granted, mut before) = (0, None);
    for number in 0..requests {
        let (path, asked) = whole(&mut random);
        let body = mutated(&asked.to_string(), &mut random);
        let by = ["?consistency=local", "?consistency=local", ""][random.gen_range(0..3)];
        let path = if path == "/v1/commands" {
            path.to_owned()
        } else {
            format!("{path}{by}")
        };
        let mut asked = request(Method::POST, &path, &[], "");
        *asked.body_mut() = body.clone().into();
        let Some(told) = client.try_send(asked).await else {
            let (asked, said) = (String::from_utf8_lossy(&body), group.last_said());
            panic!("no answer to request {number}, {asked}: {said}");
        };
        let status = told.status().as_u16();
        assert!(STATUSES.contains(&status), "{status}");
        let told = to_bytes(told.into_body()).await.unwrap();
        let told: Value = serde_json::from_slice(&told).unwrap();
        if status == 200 {
            check_told(&body, &told);
        }
        granted += u64::from(told["decision"] == true);
        if number == requests / 4 {
            before = Some(files_and_memory(process));
        }
    }
    assert!(granted > requests / 100, "{granted}");
    let (files, resident) = before.unwrap();
    let (files_then, resident_then) = files_and_memory(process);
    assert_eq!(files, files_then);
    // What is ordered stays in the history: some 1,000 bytes each.
    let kept = requests * 2;
    assert!(
        resident_then < resident + 20_000 + kept,
        "{resident} kB, then {resident_then} kB"
    );
}
