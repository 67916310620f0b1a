//! Rows in files that are trimmed while the disk fails, and while others read and write.
use super::Memory;
use crate::conformance::{all, row, set, texts};
use crate::doubles::{Call, ForgetfulDisk, Wrong};
use bytes::Bytes;
use rand::rngs::StdRng;
use rand::{Rng, SeedableRng};
use rows::{sure_set, Engine, Fault, Files, Told};
use std::os::unix::fs::MetadataExt;
use std::sync::Arc;

fn over(disk: &ForgetfulDisk) -> Files {
    Files::over(Arc::new(disk.clone()), "rows")
}

/// Cells 1 to 5 of a row, in two records.
async fn with_five_cells() -> (ForgetfulDisk, Files) {
    let disk = ForgetfulDisk::new();
    let engine = over(&disk);
    assert_eq!(set(&engine, 1, &["1", "2"]).await, Ok(Told::Set));
    assert_eq!(set(&engine, 3, &["3", "4", "5"]).await, Ok(Told::Set));
    (disk, engine)
}

#[tokio::test]
async fn a_row_is_whole_or_trimmed_whatever_a_loss_of_power_takes() {
    let mut trimmed = 0;
    for seed in 0..400 {
        let mut random = StdRng::seed_from_u64(seed);
        let (disk, engine) = with_five_cells().await;
        let wrongs = [
            Wrong::Nothing,
            Wrong::Sync,
            Wrong::Room(random.gen_range(0..40)),
        ];
        disk.go_wrong(wrongs[random.gen_range(0..3)]);
        let told = engine.trim(&row(), random.gen_range(3..6)).await;
        disk.go_wrong(Wrong::Nothing);
        disk.lose_power(&mut random);
        let anew = over(&disk);
        match anew.get(&row(), 1).await {
            Err(Fault::Trimmed(first)) => {
                let five = texts(&["1", "2", "3", "4", "5"]);
                let left = anew.get(&row(), first).await;
                assert_eq!(left, Ok(five[first as usize - 1..].to_vec()), "{seed}");
                trimmed += 1;
            }
            there => {
                assert!(told.is_err(), "{seed}");
                assert_eq!(there, Ok(texts(&["1", "2", "3", "4", "5"])), "{seed}");
            }
        }
        assert_eq!(set(&anew, 1, &["again"]).await, Ok(Told::Taken));
        assert_eq!(anew.trim(&row(), 5).await, Ok(()));
        assert_eq!(set(&anew, 6, &["6"]).await, Ok(Told::Set));
        assert_eq!(anew.get(&row(), 5).await, Ok(texts(&["5", "6"])));
    }
    assert!((100..300).contains(&trimmed), "{trimmed}");
}

#[tokio::test]
async fn a_process_that_was_paused_before_it_wrote_is_told_that_the_cell_is_taken() {
    for remembers in [0, 2] {
        let disk = ForgetfulDisk::new();
        let paused = over(&disk);
        let first = ["1", "2"];
        if remembers == 2 {
            assert_eq!(set(&paused, 1, &first).await, Ok(Told::Set));
        }
        let other = over(&disk);
        disk.before(Call::Append, 0, async move {
            if remembers == 0 {
                assert_eq!(set(&other, 1, &first).await, Ok(Told::Set));
            }
            assert_eq!(set(&other, 3, &["3"]).await, Ok(Told::Set));
            assert_eq!(other.trim(&row(), 3).await, Ok(()));
        });
        let told = set(&paused, remembers + 1, &["a", "b", "c", "d"]).await;
        assert_eq!(told, Ok(Told::Taken));
        for engine in [paused, over(&disk)] {
            assert_eq!(engine.get(&row(), 1).await, Err(Fault::Trimmed(3)));
            assert_eq!(engine.get(&row(), 3).await, Ok(texts(&["3"])));
        }
    }
}

/// A process that is paused when it has written these cells, while others set one behind them and trim the row.
fn paused_behind(cells: u64, last: u64) -> Files {
    let disk = ForgetfulDisk::new();
    let (paused, other) = (over(&disk), over(&disk));
    disk.before(Call::Sync, 0, async move {
        assert_eq!(set(&other, cells + 1, &["end"]).await, Ok(Told::Set));
        assert_eq!(other.trim(&row(), last).await, Ok(()));
    });
    paused
}

#[tokio::test]
async fn a_process_that_was_paused_when_it_had_written_is_told_no_more_than_is_known() {
    let paused = paused_behind(2, 3);
    assert_eq!(set(&paused, 1, &["1", "2"]).await, Ok(Told::Unsure));
    assert_eq!(paused.get(&row(), 3).await, Ok(texts(&["end"])));
    // The second of its cells is left.
    let paused = paused_behind(2, 2);
    assert_eq!(set(&paused, 1, &["1", "2"]).await, Ok(Told::Set));
    assert_eq!(paused.get(&row(), 2).await, Ok(texts(&["2", "end"])));
}

#[tokio::test(start_paused = true)]
async fn what_became_of_cells_that_are_removed_is_not_known() {
    let paused = paused_behind(2, 3);
    let told = sure_set(&paused, &row(), 1, &texts(&["1", "2"])).await;
    assert_eq!(told, Err(Fault::Trimmed(3)));
}

/// What a reader that has read the row before, or not, is told from a number on, where the row is trimmed before so many reads of the disk.
async fn told_amid(has_read: bool, is_marked: bool, first: u64, reads: usize) {
    let (disk, _) = with_five_cells().await;
    let (reader, other) = (over(&disk), over(&disk));
    if has_read {
        assert_eq!(all(&reader).await.len(), 5);
    }
    if !is_marked {
        disk.lose_marks();
    }
    disk.before(Call::Read, reads, async move {
        assert_eq!(other.trim(&row(), 5).await, Ok(()));
    });
    let told = reader.get(&row(), first).await;
    let whole = texts(&["1", "2", "3", "4", "5"][first as usize - 1..]);
    let is_right = told == Err(Fault::Trimmed(5)) || told == Ok(whole);
    assert!(is_right, "{has_read} {is_marked} {first} {reads}: {told:?}");
}

#[tokio::test]
async fn a_reader_never_takes_a_trimmed_row_for_a_short_one() {
    for (has_read, is_marked) in [(false, true), (false, false), (true, true), (true, false)] {
        for first in [1, 2, 4] {
            for reads in 0..8 {
                told_amid(has_read, is_marked, first, reads).await;
            }
        }
    }
}

#[tokio::test]
async fn a_record_that_lost_is_not_read_where_the_one_that_won_was_wiped_out() {
    let disk = ForgetfulDisk::new();
    let engines = [over(&disk), over(&disk), over(&disk)];
    let [first, second, third] = engines;
    // Records of cell 1 alone, of cells 1 to 3, which loses, and of what follows.
    disk.before(Call::Append, 0, async move {
        assert_eq!(set(&first, 1, &["1"]).await, Ok(Told::Set));
    });
    assert_eq!(set(&second, 1, &["a", "b", "c"]).await, Ok(Told::Taken));
    for (number, text) in [(2, "2"), (3, "3")] {
        assert_eq!(set(&third, number, &[text]).await, Ok(Told::Set));
    }
    assert_eq!(third.trim(&row(), 3).await, Ok(()));
    for seed in 0..200 {
        let copy = disk.copy();
        copy.lose_power(&mut StdRng::seed_from_u64(seed));
        let anew = over(&copy);
        assert_eq!(anew.get(&row(), 1).await, Err(Fault::Trimmed(3)), "{seed}");
        assert_eq!(anew.get(&row(), 3).await, Ok(texts(&["3"])), "{seed}");
    }
}

#[tokio::test]
async fn what_is_removed_takes_no_room() {
    let folder = tempfile::tempdir().unwrap();
    let engine = Files::of(folder.path());
    let long = "x".repeat(100_000);
    for number in 1..31 {
        assert_eq!(set(&engine, number, &[&long]).await, Ok(Told::Set));
    }
    let row_file = folder.path().join("n1/g1.row");
    let room = || row_file.metadata().unwrap().blocks() * 512;
    let before = room();
    assert_eq!(engine.trim(&row(), 30).await, Ok(()));
    assert!(room() < before / 10, "{} of {before}", room());
    assert_eq!(
        all_from(&Files::of(folder.path()), 30).await,
        texts(&[&long])
    );
}

async fn all_from(engine: &dyn Engine, first: u64) -> Vec<Bytes> {
    engine.get(&row(), first).await.unwrap()
}

#[tokio::test(start_paused = true)]
async fn a_trimmed_row_keeps_its_end_on_a_disk_in_memory() {
    let store = Memory(ForgetfulDisk::new());
    crate::conformance::a_trimmed_row_keeps_its_end_and_never_begins_anew(&store).await;
}
