//! Rows in etcd: one server, and clusters of three, that are killed, filled up, compacted, and that let nobody in.
mod cluster;
mod failures;
mod rights;

use crate::conformance::{self, all, row, set, texts};
use bytes::Bytes;
pub use cluster::open_by;
use cluster::{open, Cluster, HasRows, Setup};
use rows::etcd::Options;
use rows::{Engine, Fault, RowName, Told};
use std::time::Duration;
use tokio::time::timeout;

async fn one() -> Cluster {
    Cluster::start(1, Setup::default()).await
}

#[tokio::test]
async fn cells_are_set_once_in_order_and_together() {
    conformance::cells_are_set_once_in_order_and_together(&one().await).await;
}

#[tokio::test]
async fn a_trimmed_row_keeps_its_end_and_never_begins_anew() {
    conformance::a_trimmed_row_keeps_its_end_and_never_begins_anew(&one().await).await;
}

#[tokio::test]
async fn a_text_that_is_no_line_is_refused() {
    conformance::a_text_that_is_no_line_is_refused(&one().await).await;
}

#[tokio::test]
async fn a_reader_is_told_of_what_another_process_sets() {
    conformance::a_reader_is_told_of_what_another_process_sets(&one().await).await;
}

#[tokio::test(flavor = "multi_thread")]
async fn of_writers_that_race_each_cell_has_one() {
    conformance::of_writers_that_race_each_cell_has_one(&one().await, 200).await;
}

#[tokio::test]
async fn of_processes_that_are_killed_each_cell_has_one_writer() {
    let lasts = Duration::from_millis(1000);
    conformance::of_processes_that_are_killed_each_cell_has_one_writer(&mut one().await, lasts)
        .await;
}

#[tokio::test]
async fn of_a_row_that_is_trimmed_by_processes_that_are_killed_no_cell_is_set_again() {
    let lasts = Duration::from_millis(1000);
    let mut store = one().await;
    conformance::of_a_row_that_is_trimmed_by_processes_that_are_killed_no_cell_is_set_again(
        &mut store, lasts,
    )
    .await;
}

#[tokio::test]
async fn what_became_of_a_set_is_found_where_replies_are_lost() {
    conformance::what_became_of_a_set_is_found_where_replies_are_lost(&one().await, 40).await;
}

/// So many texts that have so many bytes together.
fn several(count: usize, bytes: usize) -> Vec<Bytes> {
    let mut told = vec![Bytes::from("x".repeat(bytes / count)); count - 1];
    told.push("x".repeat(bytes - bytes / count * (count - 1)).into());
    told
}

#[tokio::test]
async fn a_set_has_no_more_than_there_is_room_for() {
    let cluster = one().await;
    let engine = open(Options {
        prefix: "p".repeat(128),
        ..cluster.options()
    });
    let engine = engine.await;
    let row = RowName::of_node(&"n".repeat(64), u64::MAX).unwrap();
    for (count, bytes) in [(101, 0), (1, 1_000_001), (100, 1_000_001)] {
        let told = engine.set(&row, 1, &several(count, bytes)).await;
        assert!(matches!(told, Err(Fault::TooMuch(_))), "{count} {bytes}");
    }
    let longest = [several(100, 1_000_000), several(1, 1_000_000)];
    assert_eq!(engine.set(&row, 1, &longest[0]).await, Ok(Told::Set));
    assert_eq!(engine.set(&row, 101, &longest[1]).await, Ok(Told::Set));
    assert_eq!(engine.get(&row, 1).await, Ok(longest.concat()));
    assert_eq!(engine.set(&row, 2, &longest[0]).await, Ok(Told::Taken));
}

#[tokio::test]
async fn numbers_at_the_ends_are_none_of_a_cell_that_can_be_set() {
    let cluster = one().await;
    let engine = open(cluster.options()).await;
    for (first, told) in [
        (0, Told::Taken),
        (u64::MAX - 1, Told::Gap),
        (u64::MAX, Told::Gap),
    ] {
        assert_eq!(engine.set(&row(), first, &several(2, 2)).await, Ok(told));
        assert_eq!(engine.get(&row(), first).await, Ok(Vec::new()));
    }
}

#[tokio::test]
async fn a_row_is_read_in_pages() {
    let cluster = one().await;
    let engine = open(cluster.options()).await;
    let mut all_set = Vec::new();
    for first in (1..3_201).step_by(100) {
        let texts: Vec<Bytes> = (first..first + 100).map(|i| i.to_string().into()).collect();
        assert_eq!(engine.set(&row(), first, &texts).await, Ok(Told::Set));
        all_set.extend(texts);
        if (first + 99) % 1000 < 200 {
            assert_eq!(all(&engine).await, all_set);
        }
    }
    for first in [501, 1_201, 2_200, 2_201, 2_202, 3_200] {
        let there = engine.get(&row(), first).await.unwrap();
        assert_eq!(there, all_set[first as usize - 1..]);
    }
    // A cell that is gone where a page would begin is told by those behind it.
    cluster.operate("del /groups/ward/n1/g1/00000000000000002001");
    let told = engine.get(&row(), 1).await;
    assert!(matches!(told, Err(Fault::Broken(_))), "{told:?}");
    let told = set(&engine, 2_001, &["again"]).await;
    assert!(matches!(told, Err(Fault::Broken(_))), "{told:?}");
    // A row is trimmed in pieces.
    for last in [3_199, 3_200] {
        assert_eq!(engine.trim(&row(), last).await, Ok(()));
        assert_eq!(engine.get(&row(), 1).await, Err(Fault::Trimmed(last)));
        assert_eq!(
            engine.get(&row(), last - 1).await,
            Err(Fault::Trimmed(last))
        );
        let left = engine.get(&row(), last).await;
        assert_eq!(left, Ok(all_set[last as usize - 1..].to_vec()));
    }
}

#[tokio::test]
async fn tidings_have_the_texts_from_the_next_number_on_where_none_is_missing() {
    let cluster = one().await;
    let (writer, reader) = (open(cluster.options()).await, open(cluster.options()).await);
    let mut tidings = reader.follow(&row()).await.unwrap();
    let long = Duration::from_secs(60);
    let cases: [(&[&str], u64, &[&str]); 5] = [
        (&["1"], 1, &["1"]),
        (&["2", "3"], 2, &["2", "3"]),
        // What was read meanwhile is not told again.
        (&["4", "5"], 5, &["5"]),
        // The one before is missing, and is asked for.
        (&["6"], 5, &[]),
        (&["7"], 7, &["7"]),
    ];
    let mut first = 1;
    for (set_now, next, told) in cases {
        assert_eq!(set(&writer, first, set_now).await, Ok(Told::Set));
        assert_eq!(tidings.wait(next, long).await, texts(told));
        first += set_now.len() as u64;
    }
    assert_eq!(set(&writer, 8, &["8"]).await, Ok(Told::Set));
    let short = Duration::from_millis(100);
    assert_eq!(timeout(long, tidings.wait(9, short)).await, Ok(texts(&[])));
    writer.trim(&row(), 8).await.unwrap();
    assert_eq!(timeout(long, tidings.wait(9, long)).await, Ok(texts(&[])));
}
