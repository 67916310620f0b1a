//! A group whose processes are of two releases: of the last one, in `dist/`, or that whose program `OTHER_RELEASE` names, and of these sources.
use crate::callers::ended;
use crate::generations::{answers, propose, state_where};
use crate::group::{founding, named_release, Group};
use bytes::Bytes;
use fochillund::ask::Members;
use fochillund::callers::State;
use fochillund::generation::Foundings;
use fochillund::group::node;
use fochillund::node::Phase;
use fochillund::rules;
use rows::cell::Founding;
use rows::{Engine, Files, RowName, Told};
use serde_json::json;
use std::path::{Path, PathBuf};

const MEMBERS: u32 = 3;

fn other_release() -> PathBuf {
    let last = || Path::new(env!("CARGO_MANIFEST_DIR")).join("../../dist/fochillund");
    named_release().unwrap_or_else(last)
}

/// What the rules of the group are called.
async fn rules_of(group: &Group) -> String {
    let cells = Files::of(group.folder()).get(&RowName::founding(), 1).await;
    let founding: Founding = serde_json::from_slice(&cells.unwrap()[0]).unwrap();
    founding.rules
}

/// The member goes on as a process of this release; of these sources where there is none.
async fn go_over(group: &mut Group, member: u32, release: Option<&Path>) {
    group.kill(member);
    group.put_release(member, release);
    group.start(member, &[]);
    let process = group.process(member).unwrap().id();
    let state = state_where(group, &node(member), |state| state.process == process).await;
    if release.is_none() {
        assert_eq!(state.release.as_deref(), Some(env!("CARGO_PKG_VERSION")));
    }
}

/// Asks each member to add a user in this turn, and what it was asked in each turn before, which it answers as it did.
async fn ask_all(client: &mut Members, turn: usize) {
    for member in 1..=MEMBERS {
        for turn in 0..=turn {
            let user = format!("u{member}-{turn}");
            let command = format!(r#"[{{"name":"AddUser","user":"{user}"}}]"#);
            assert_eq!(answers(client, member, &user, &command).await, ["Done"]);
        }
    }
}

/// The history of each member, once it has all that was asked in five turns.
async fn histories(group: &Group, client: &mut Members) -> Vec<Vec<String>> {
    let mut told = Vec::new();
    for member in 1..=MEMBERS {
        let has_all = |state: &State| state.records == 5 * u64::from(MEMBERS);
        state_where(group, &node(member), has_all).await;
        let records = client.records(member, 1).await.unwrap();
        told.push(records.iter().map(|it| it.get().to_owned()).collect());
    }
    told
}

#[tokio::test]
async fn who_joins_a_group_of_other_rules_ends() {
    let group = Group::of(1);
    let file = founding(1);
    let (number, text) = Foundings::new().proposal(&[node(1)], Some(&file), "");
    let mut cell: Founding = serde_json::from_slice(&text).unwrap();
    cell.rules = "of another".to_owned();
    let text = Bytes::from(serde_json::to_vec(&cell).unwrap());
    let (rows, row) = (Files::of(group.folder()), RowName::founding());
    assert_eq!(rows.set(&row, number, &[text]).await, Ok(Told::Set));
    assert_eq!(ended(group.spawn(1, &[])), Some(2));
    assert!(group.last_said().contains("other rules"));
}

#[tokio::test]
async fn a_group_goes_over_to_another_release_and_back_one_process_at_a_time() {
    let other = other_release();
    let mut group = Group::of(MEMBERS);
    (1..=MEMBERS).for_each(|member| group.put_release(member, Some(&other)));
    group.start_all();
    let mut client = group.client();
    ask_all(&mut client, 0).await;
    if !rules::are_known(&rules_of(&group).await) {
        group.kill(1);
        group.put_release(1, None);
        assert_eq!(ended(group.spawn(1, &[])), Some(2));
        return;
    }
    let steps = [(1, None), (3, None), (1, Some(&*other)), (2, None)];
    for (turn, (member, release)) in (1..).zip(steps) {
        go_over(&mut group, member, release).await;
        ask_all(&mut client, turn).await;
    }
    let told = histories(&group, &mut client).await;
    assert!(told.iter().all(|history| history == &told[0]), "{told:?}");
    // Of those that are left one is of the other release.
    propose(&group, &["--leave-out", "n3"]);
    for member in 1..MEMBERS {
        let goes_on = |state: &State| state.generation == 2 && state.phase == Phase::Serves;
        state_where(&group, &node(member), goes_on).await;
    }
    let exists = json!({ "denied": "UserExists", "number": 1 });
    let again = r#"[{"name":"AddUser","user":"u3-0"}]"#;
    for member in 1..MEMBERS {
        let told = answers(&mut client, member, "again", again).await;
        assert_eq!(told, std::slice::from_ref(&exists));
    }
}
