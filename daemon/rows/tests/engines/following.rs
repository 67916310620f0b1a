//! A row that is followed while it grows, and one that has lost its end.

use crate::doubles::{LossyEngine, TellingEngine};
use bytes::Bytes;
use rows::cell::{Call, Cell, Chain, Identity, Lost, Why};
use rows::{sure_set, Engine, Fault, Files, FollowFault, Follower, RowName, Told, SWEEP};
use serde_json::value::RawValue;
use std::path::Path;
use std::sync::Arc;
use std::time::Duration;

const FOUNDING: &[u8] = b"the founding's cell";

fn chain() -> Chain {
    Chain::of(RowName::of_node("n1", 1).unwrap(), 1, 1, FOUNDING)
}

/// So many cells of a row, from where it was read to.
fn cells(writer: &str, mut chain: Chain, count: usize) -> Vec<Bytes> {
    let mut told = Vec::new();
    while told.len() < count {
        let number = chain.next();
        let message = RawValue::from_string(format!(r#"{{"stamp":[{number},1]}}"#)).unwrap();
        let mut cell = chain.cell(writer, vec![number - 1], message);
        cell.calls = vec![Call {
            commands: 2,
            identity: Some(Identity {
                caller: "ann".to_owned(),
                id: format!("call {number}"),
            }),
        }];
        let text = serde_json::to_vec(&cell).unwrap();
        chain.take(&text).unwrap();
        told.push(text.into());
    }
    told
}

async fn set(engine: &dyn Engine, first: u64, told: &[Bytes]) {
    assert_eq!(
        sure_set(engine, chain().row(), first, told).await,
        Ok(Told::Set)
    );
}

#[tokio::test(flavor = "multi_thread")]
async fn each_cell_is_given_once_in_order() {
    let folder = tempfile::tempdir().unwrap();
    let all = cells("w", chain(), 100);
    let writer = Files::of(folder.path());
    let reader = Arc::new(LossyEngine::of(Arc::new(Files::of(folder.path())), 3));
    let mut follower = Follower::of(reader, chain()).await.unwrap();
    let texts = all.clone();
    let setting = tokio::spawn(async move {
        for (place, several) in texts.chunks(3).enumerate() {
            set(&writer, place as u64 * 3 + 1, several).await;
        }
    });
    let mut given = Vec::new();
    while given.len() < all.len() {
        given.extend(follower.next().await.unwrap());
    }
    setting.await.unwrap();
    for (number, (sent, text)) in (1..).zip(given.iter().zip(&all)) {
        let cell: Cell = serde_json::from_slice(text).unwrap();
        assert_eq!(
            (sent.number, sent.message.get()),
            (number, cell.message.get())
        );
    }
    assert_eq!(given.len(), all.len());
    assert_eq!(follower.chain().next(), 101);
}

#[tokio::test(start_paused = true)]
async fn a_row_that_is_silent_is_not_empty() {
    let folder = tempfile::tempdir().unwrap();
    let all = cells("w", chain(), 5);
    set(&Files::of(folder.path()), 1, &all).await;
    for seed in 0..20 {
        let reader = Arc::new(LossyEngine::of(Arc::new(Files::of(folder.path())), seed));
        let mut follower = Follower::of(reader, chain()).await.unwrap();
        assert_eq!(follower.there().await.unwrap().len(), all.len());
    }
}

#[tokio::test(start_paused = true)]
async fn texts_that_came_with_tidings_are_not_asked_for_but_from_time_to_time() {
    let all = cells("w", chain(), 5);
    let engine = Arc::new(TellingEngine::default());
    let mut follower = Follower::of(engine.clone(), chain()).await.unwrap();
    engine.put(&all[..1]);
    assert_eq!(follower.next().await.unwrap().len(), 1);
    assert_eq!(engine.gets(), 1);
    engine.put(&all[1..3]);
    assert_eq!(follower.next().await.unwrap().len(), 2);
    assert_eq!(engine.gets(), 1);
    for (number, text) in (2..).zip(&all[3..]) {
        tokio::time::sleep(SWEEP + Duration::from_millis(1)).await;
        engine.put(std::slice::from_ref(text));
        assert_eq!(follower.next().await.unwrap().len(), 1);
        assert_eq!(engine.gets(), number);
    }
    engine.put(&cells("other", chain(), 6)[5..]);
    let told = follower.next().await.unwrap_err();
    assert!(matches!(told, FollowFault::Lost(lost) if lost.why == Why::OtherChain));
}

#[tokio::test]
async fn who_follows_a_trimmed_row_is_told_that_it_is_too_late() {
    let folder = tempfile::tempdir().unwrap();
    let all = cells("w", chain(), 5);
    let engine = Arc::new(Files::of(folder.path()));
    set(&*engine, 1, &all).await;
    let mut read_to = chain();
    for text in &all[..4] {
        read_to.take(text).unwrap();
    }
    let follower = |chain| Follower::of(Arc::clone(&engine) as Arc<dyn Engine>, chain);
    let (mut late, mut in_time) = (
        follower(chain()).await.unwrap(),
        follower(read_to).await.unwrap(),
    );
    engine.trim(chain().row(), 5).await.unwrap();
    let told = late.next().await.unwrap_err();
    assert_eq!(told, FollowFault::Engine(Fault::Trimmed(5)));
    assert_eq!(in_time.next().await.unwrap().len(), 1);
}

/// Takes the row's file back to what it was, as an old copy of a folder does.
fn take_back(folder: &Path, length: u64) {
    for (name, length) in [("n1/g1.row", length), ("n1/g1.mark", 0)] {
        let file = std::fs::OpenOptions::new()
            .write(true)
            .open(folder.join(name))
            .unwrap();
        file.set_len(length).unwrap();
    }
}

#[tokio::test]
async fn a_row_that_lost_its_end_is_told() {
    let folder = tempfile::tempdir().unwrap();
    let first = cells("w", chain(), 4);
    set(&Files::of(folder.path()), 1, &first[..2]).await;
    let length = std::fs::metadata(folder.path().join("n1/g1.row"))
        .unwrap()
        .len();
    set(&Files::of(folder.path()), 3, &first[2..]).await;
    let mut follower = Follower::of(Arc::new(Files::of(folder.path())), chain())
        .await
        .unwrap();
    assert_eq!(follower.next().await.unwrap().len(), 4);
    let read = follower.chain().clone();
    take_back(folder.path(), length);
    // Whoever was made anew of the shorter row goes on otherwise.
    let mut chain_of_two = chain();
    for text in &first[..2] {
        chain_of_two.take(text).unwrap();
    }
    let other = cells("other", chain_of_two, 3);
    set(&Files::of(folder.path()), 3, &other).await;
    let mut follower = Follower::of(Arc::new(Files::of(folder.path())), read)
        .await
        .unwrap();
    let lost = Lost {
        row: chain().row().clone(),
        number: 5,
        why: Why::OtherChain,
    };
    let told = follower.next().await.unwrap_err();
    assert_eq!(told, FollowFault::Lost(lost));
}
