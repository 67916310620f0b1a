//! Rows as files in a folder, on this machine's disk and on one that forgets, fills up and fails.
mod trimming;

use crate::conformance::{self, all, row, set, texts};
use crate::doubles::{ForgetfulDisk, Wrong};
use crate::stores::Store;
use async_trait::async_trait;
use bytes::Bytes;
use rand::rngs::StdRng;
use rand::{Rng, SeedableRng};
use rows::{Engine, Fault, Files, Told};
use std::fs::OpenOptions;
use std::io::Write;
use std::path::Path;
use std::sync::Arc;
use std::time::Duration;
use tempfile::TempDir;

struct Folder(TempDir);

impl Folder {
    fn new() -> Folder {
        Folder(tempfile::tempdir().unwrap())
    }
}

#[async_trait]
impl Store for Folder {
    async fn open(&self) -> Arc<dyn Engine> {
        Arc::new(Files::of(self.0.path()))
    }

    fn words(&self) -> String {
        format!("files {}", self.0.path().display())
    }

    async fn befall(&mut self, random: &mut StdRng) {
        let row = self.0.path().join("n1/g1.row");
        if row.exists() {
            tear(&row, random);
        }
    }
}

/// Rows on a disk in memory.
struct Memory(ForgetfulDisk);

#[async_trait]
impl Store for Memory {
    async fn open(&self) -> Arc<dyn Engine> {
        Arc::new(Files::over(Arc::new(self.0.clone()), "rows"))
    }

    fn words(&self) -> String {
        unreachable!("another process has no part of it")
    }
}

/// Puts a part of a record, or what is none, behind what a row's file has, as a writer that died amid its write.
fn tear(row: &Path, random: &mut StdRng) {
    let mut file = OpenOptions::new().append(true).open(row).unwrap();
    let torn = b"\n3 0123456789abcdef w9 3 0";
    file.write_all(&torn[..random.gen_range(0..torn.len())])
        .unwrap();
}

#[tokio::test]
async fn cells_are_set_once_in_order_and_together() {
    conformance::cells_are_set_once_in_order_and_together(&Folder::new()).await;
}

#[tokio::test]
async fn a_trimmed_row_keeps_its_end_and_never_begins_anew() {
    conformance::a_trimmed_row_keeps_its_end_and_never_begins_anew(&Folder::new()).await;
}

#[tokio::test]
async fn a_text_that_is_no_line_is_refused() {
    conformance::a_text_that_is_no_line_is_refused(&Folder::new()).await;
}

#[tokio::test]
async fn a_reader_is_told_of_what_another_process_sets() {
    conformance::a_reader_is_told_of_what_another_process_sets(&Folder::new()).await;
}

#[tokio::test(flavor = "multi_thread")]
async fn of_writers_that_race_each_cell_has_one() {
    conformance::of_writers_that_race_each_cell_has_one(&Folder::new(), 400).await;
}

#[tokio::test]
async fn of_processes_that_are_killed_each_cell_has_one_writer() {
    let lasts = Duration::from_millis(200);
    conformance::of_processes_that_are_killed_each_cell_has_one_writer(&mut Folder::new(), lasts)
        .await;
}

#[tokio::test]
async fn of_a_row_that_is_trimmed_by_processes_that_are_killed_no_cell_is_set_again() {
    let lasts = Duration::from_millis(200);
    let mut store = Folder::new();
    conformance::of_a_row_that_is_trimmed_by_processes_that_are_killed_no_cell_is_set_again(
        &mut store, lasts,
    )
    .await;
}

#[tokio::test(start_paused = true)]
async fn what_became_of_a_set_is_found_where_replies_are_lost() {
    let store = Memory(ForgetfulDisk::new());
    conformance::what_became_of_a_set_is_found_where_replies_are_lost(&store, 400).await;
}

#[tokio::test]
async fn nothing_is_shown_that_a_loss_of_power_takes_back() {
    for seed in 0..300 {
        let disk = ForgetfulDisk::new();
        let mut random = StdRng::seed_from_u64(seed);
        let mut shown: Vec<Bytes> = Vec::new();
        for life in 0..4 {
            let engines = [0, 1].map(|_| Files::over(Arc::new(disk.clone()), "rows"));
            for step in 0..6 {
                let engine = &engines[random.gen_range(0..2)];
                let (first, text) = (shown.len() as u64 + 1, format!("{life} {step}"));
                if random.gen() {
                    let told = set(engine, first, &[&text, "more"][..random.gen_range(1..3)]).await;
                    assert!(matches!(told, Ok(Told::Set | Told::Taken)), "{told:?}");
                }
                let there = all(engine).await;
                assert!(
                    there.starts_with(&shown),
                    "seed {seed}: {there:?} after {shown:?}"
                );
                shown = there;
            }
            disk.lose_power(&mut random);
        }
        assert!(!shown.is_empty());
    }
}

#[tokio::test]
async fn a_full_disk_has_nothing_set_and_is_used_again() {
    for room in 0..40 {
        let disk = ForgetfulDisk::new();
        let engine = Files::over(Arc::new(disk.clone()), "rows");
        assert_eq!(set(&engine, 1, &["one"]).await, Ok(Told::Set));
        disk.go_wrong(Wrong::Room(room));
        let told = set(&engine, 2, &["a text that is longer than the room"]).await;
        assert_eq!(told, Err(Fault::Full), "{room}");
        assert_eq!(all(&engine).await, texts(&["one"]));
        disk.go_wrong(Wrong::Nothing);
        assert_eq!(set(&engine, 2, &["two"]).await, Ok(Told::Set));
        let other = Files::over(Arc::new(disk), "rows");
        assert_eq!(all(&other).await, texts(&["one", "two"]));
    }
}

#[tokio::test]
async fn a_sync_that_fails_ends_it_for_good() {
    let disk = ForgetfulDisk::new();
    let engine = Files::over(Arc::new(disk.clone()), "rows");
    assert_eq!(set(&engine, 1, &["one"]).await, Ok(Told::Set));
    disk.go_wrong(Wrong::Sync);
    assert!(matches!(
        set(&engine, 2, &["two"]).await,
        Err(Fault::Broken(_))
    ));
    disk.go_wrong(Wrong::Nothing);
    assert!(matches!(
        set(&engine, 2, &["two"]).await,
        Err(Fault::Broken(_))
    ));
    assert!(matches!(engine.get(&row(), 1).await, Err(Fault::Broken(_))));
    let other = Files::over(Arc::new(disk), "rows");
    assert_eq!(all(&other).await, texts(&["one"]));
}

#[tokio::test]
async fn after_a_sync_that_failed_another_process_keeps_what_it_tells() {
    for seed in 0..20 {
        let disk = ForgetfulDisk::new();
        let engine = Files::over(Arc::new(disk.clone()), "rows");
        assert_eq!(set(&engine, 1, &["one"]).await, Ok(Told::Set));
        disk.go_wrong(Wrong::Sync);
        let told = set(&engine, 2, &["a text that is dropped"]).await;
        assert!(matches!(told, Err(Fault::Broken(_))), "{told:?}");
        disk.go_wrong(Wrong::Nothing);
        let other = Files::over(Arc::new(disk.clone()), "rows");
        assert_eq!(set(&other, 2, &["two"]).await, Ok(Told::Set));
        disk.lose_power(&mut StdRng::seed_from_u64(seed));
        let anew = Files::over(Arc::new(disk), "rows");
        assert_eq!(all(&anew).await, texts(&["one", "two"]), "seed {seed}");
    }
}
