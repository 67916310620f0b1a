//! What each engine has to pass, over a store of rows that a test of that engine has made.
use crate::doubles::LossyEngine;
use crate::stores::{open_by, Store};
use bytes::Bytes;
use rand::rngs::StdRng;
use rand::{Rng, SeedableRng};
use rows::{sure_get, sure_set, sure_trim, Engine, Fault, RowName, Told};
use std::io::{BufRead, BufReader, Write};
use std::process::{Child, Command, Stdio};
use std::sync::Arc;
use std::time::{Duration, Instant};

pub fn row() -> RowName {
    RowName::of_node("n1", 1).unwrap()
}

pub fn texts(told: &[&str]) -> Vec<Bytes> {
    told.iter()
        .map(|text| Bytes::copy_from_slice(text.as_bytes()))
        .collect()
}

pub async fn set(engine: &dyn Engine, first: u64, told: &[&str]) -> Result<Told, Fault> {
    engine.set(&row(), first, &texts(told)).await
}

pub async fn all(engine: &dyn Engine) -> Vec<Bytes> {
    engine.get(&row(), 1).await.unwrap()
}

pub async fn cells_are_set_once_in_order_and_together(store: &dyn Store) {
    let engine = &*store.open().await;
    assert_eq!(all(engine).await, texts(&[]));
    assert_eq!(set(engine, 2, &["two"]).await, Ok(Told::Gap));
    assert_eq!(set(engine, 1, &["one"]).await, Ok(Told::Set));
    assert_eq!(set(engine, 1, &["other"]).await, Ok(Told::Taken));
    assert_eq!(set(engine, 1, &["one"]).await, Ok(Told::Taken));
    assert_eq!(set(engine, 1, &["one", "two"]).await, Ok(Told::Taken));
    assert_eq!(set(engine, 2, &["two", "", "four"]).await, Ok(Told::Set));
    assert_eq!(set(engine, 4, &["other", "five"]).await, Ok(Told::Taken));
    assert_eq!(set(engine, 6, &["six"]).await, Ok(Told::Gap));
    assert_eq!(all(engine).await, texts(&["one", "two", "", "four"]));
    assert_eq!(engine.get(&row(), 4).await, Ok(texts(&["four"])));
    assert_eq!(engine.get(&row(), 9).await, Ok(texts(&[])));
    assert_eq!(all(&*store.open().await).await, all(engine).await);
    assert_eq!(engine.get(&RowName::founding(), 1).await, Ok(texts(&[])));
}

/// What processes that remember the row as it was at each time are told of it once it is trimmed.
pub async fn a_trimmed_row_keeps_its_end_and_never_begins_anew(store: &dyn Store) {
    let row = row();
    let mut engines = vec![store.open().await];
    for (first, told) in [(1, &["one"][..]), (2, &["2", "3"]), (4, &["4", "5", "6"])] {
        assert_eq!(set(&*engines[0], first, told).await, Ok(Told::Set));
        engines.push(store.open().await);
        all(&*engines[engines.len() - 1]).await;
    }
    engines.push(store.open().await);
    for last in [3, 6, 2, 6] {
        assert_eq!(engines[3].trim(&row, last).await, Ok(()));
    }
    engines.push(store.open().await);
    for engine in engines.iter().map(|engine| &**engine) {
        for first in 0..7 {
            assert_eq!(set(engine, first, &["again"]).await, Ok(Told::Taken));
            assert_eq!(set(engine, first, &["a", "b"]).await, Ok(Told::Taken));
        }
        assert_eq!(set(engine, 8, &["8"]).await, Ok(Told::Gap));
        for first in 0..6 {
            assert_eq!(engine.get(&row, first).await, Err(Fault::Trimmed(6)));
        }
        assert_eq!(engine.get(&row, 6).await, Ok(texts(&["6"])));
        assert_eq!(engine.get(&row, 7).await, Ok(texts(&[])));
    }
    assert_eq!(set(&*engines[0], 7, &["7", "8"]).await, Ok(Told::Set));
    for engine in &engines {
        assert_eq!(set(&**engine, 7, &["again"]).await, Ok(Told::Taken));
        assert_eq!(engine.get(&row, 6).await, Ok(texts(&["6", "7", "8"])));
    }
    let other = RowName::of_node("n1", 10).unwrap();
    assert_eq!(
        engines[0].set(&other, 1, &texts(&["one"])).await,
        Ok(Told::Set)
    );
    let told = engines[1].trim(&row, 9).await;
    assert!(matches!(told, Err(Fault::Broken(_))), "{told:?}");
}

pub async fn a_text_that_is_no_line_is_refused(store: &dyn Store) {
    let engine = &*store.open().await;
    for told in [&["a\nb"][..], &["a", "b\tc"], &[]] {
        assert_eq!(set(engine, 1, told).await, Err(Fault::BadText));
    }
    assert_eq!(all(engine).await, texts(&[]));
}

pub async fn a_reader_is_told_of_what_another_process_sets(store: &dyn Store) {
    let (writer, reader) = (store.open().await, store.open().await);
    let mut tidings = reader.follow(&row()).await.unwrap();
    let began = Instant::now();
    let told = tidings.wait(1, Duration::from_millis(50)).await;
    assert_eq!(told, texts(&[]));
    assert!(began.elapsed() >= Duration::from_millis(50));
    let setting = tokio::spawn(async move {
        tokio::time::sleep(Duration::from_millis(20)).await;
        set(&*writer, 1, &["one"]).await
    });
    let told = tidings.wait(1, Duration::from_secs(60)).await;
    assert!(began.elapsed() < Duration::from_secs(30));
    assert!(told.is_empty() || told == texts(&["one"]));
    assert_eq!(setting.await.unwrap(), Ok(Told::Set));
    assert_eq!(all(&*reader).await, texts(&["one"]));
}

/// Sets cells in a row until it has so many, and tells the texts of those that were told to be set. Each says its number.
async fn race(
    engine: &dyn Engine,
    writer: &str,
    most: usize,
    seed: u64,
    mut tell: impl FnMut(&str),
) {
    let mut random = StdRng::seed_from_u64(seed);
    let mut next = 1;
    loop {
        let numbers = next..next + random.gen_range(1..4);
        let told: Vec<String> = numbers.map(|number| format!("{writer} {number}")).collect();
        let cells: Vec<Bytes> = told.iter().map(|text| text.clone().into()).collect();
        match sure_set(engine, &row(), next, &cells).await {
            Ok(Told::Set) => told.iter().for_each(|text| tell(text)),
            // Where the cells were removed meanwhile nobody knows whether they were these.
            Ok(Told::Taken) | Err(Fault::Trimmed(_)) => {}
            other => panic!("{other:?}"),
        }
        next = read_on(engine, next).await;
        if next > most as u64 {
            return;
        }
    }
}

/// The number behind the last cell, of a row of which those before a number were read.
async fn read_on(engine: &dyn Engine, mut next: u64) -> u64 {
    loop {
        match sure_get(engine, &row(), next).await {
            Ok(cells) => return next + cells.len() as u64,
            Err(Fault::Trimmed(first)) => next = first,
            Err(fault) => panic!("{fault}"),
        }
    }
}

/// Removes cells that it has read, for good.
async fn go_on_trimming(engine: &dyn Engine, seed: u64) {
    let mut random = StdRng::seed_from_u64(seed);
    let mut read = 1;
    loop {
        let next = read_on(engine, read).await;
        if next > read {
            let last = random.gen_range(read..next);
            sure_trim(engine, &row(), last).await.unwrap();
            read = last;
        }
        tokio::time::sleep(Duration::from_millis(random.gen_range(0..30))).await;
    }
}

/// What was told to be set is there, in the order in which its writer was told, and no cell twice.
fn check(cells: &[Bytes], told: &[String]) {
    let mut places: Vec<usize> = Vec::new();
    for text in told {
        let place = cells.iter().position(|cell| cell == text.as_bytes());
        places.push(place.unwrap_or_else(|| panic!("{text} was told to be set")));
    }
    assert!(places.windows(2).all(|both| both[0] < both[1]));
}

/// Four writers set so many cells together.
pub async fn of_writers_that_race_each_cell_has_one(store: &dyn Store, most: usize) {
    let mut racing = Vec::new();
    for writer in 0..4_u64 {
        let engine = store.open().await;
        racing.push(tokio::spawn(async move {
            let mut told = Vec::new();
            race(&*engine, &format!("w{writer}"), most, writer, |text| {
                told.push(text.to_owned())
            })
            .await;
            told
        }));
    }
    let mut count = 0;
    let mut all_told = Vec::new();
    for each in racing {
        all_told.push(each.await.unwrap());
    }
    let cells = all(&*store.open().await).await;
    for told in &all_told {
        check(&cells, told);
        count += told.len();
    }
    assert_eq!(count, cells.len());
}

const WRITER: &str = "ROWS_TEST_WRITER";

/// What the name of a process begins with that removes cells.
const TRIMMER: char = 't';

/// Not a test of its own: a writer in a process, which a test starts and kills.
#[tokio::test]
async fn writer_in_a_process() {
    let Ok(words) = std::env::var(WRITER) else {
        return;
    };
    let (writer, words) = words.split_once(' ').unwrap();
    let engine = open_by(words).await;
    if writer.starts_with(TRIMMER) {
        return go_on_trimming(&*engine, writer.len() as u64).await;
    }
    let mut out = std::io::stdout();
    race(&*engine, writer, usize::MAX, writer.len() as u64, |text| {
        writeln!(out, "set {text}").unwrap();
    })
    .await;
}

fn start_writer(words: &str, writer: &str) -> Child {
    Command::new(std::env::current_exe().unwrap())
        .args(["--exact", "conformance::writer_in_a_process", "--nocapture"])
        .env(WRITER, format!("{writer} {words}"))
        .stdout(Stdio::piped())
        .spawn()
        .unwrap()
}

/// Kills a writer, and gives what it was told to be set.
fn end_writer(mut writer: Child) -> Vec<String> {
    writer.kill().unwrap();
    writer.wait().unwrap();
    let lines = BufReader::new(writer.stdout.take().unwrap()).lines();
    let lines = lines.map_while(Result::ok);
    lines
        .filter_map(|line| line.strip_prefix("set ").map(str::to_owned))
        .collect()
}

/// In each of six rounds three writers race for so long, about, and are killed; while they do, and behind it, something befalls the store.
pub async fn of_processes_that_are_killed_each_cell_has_one_writer(
    store: &mut dyn Store,
    lasts: Duration,
) {
    let mut random = StdRng::seed_from_u64(1);
    let mut told: Vec<Vec<String>> = Vec::new();
    for round in 0..6 {
        let writers: Vec<Child> = (0..3)
            .map(|i| start_writer(&store.words(), &format!("p{round}{i}")))
            .collect();
        tokio::time::sleep(lasts.mul_f64(random.gen_range(0.3..0.7))).await;
        store.befall_writers(&mut random).await;
        tokio::time::sleep(lasts.mul_f64(random.gen_range(0.1..0.3))).await;
        told.extend(writers.into_iter().map(end_writer));
        store.befall(&mut random).await;
    }
    let cells = all(&*store.open().await).await;
    assert!(cells.len() > 20, "{}", cells.len());
    told.iter().for_each(|each| check(&cells, each));
    let count: usize = told.iter().map(Vec::len).sum();
    // A writer that was killed may have set its last cells, and not have told it.
    assert!(count <= cells.len() && cells.len() <= count + 3 * told.len());
}

fn number_of(text: &str) -> u64 {
    text.rsplit(' ').next().unwrap().parse().unwrap()
}

/// In each of six rounds writers race, two others trim the row, and all are killed: no cell is told to be set twice, however much was forgotten.
pub async fn of_a_row_that_is_trimmed_by_processes_that_are_killed_no_cell_is_set_again(
    store: &mut dyn Store,
    lasts: Duration,
) {
    let mut random = StdRng::seed_from_u64(3);
    let mut told: Vec<String> = Vec::new();
    for round in 0..6 {
        let names = ["p", "q", "t", "tt"].map(|name| format!("{name}{round}"));
        let processes = names.map(|name| start_writer(&store.words(), &name));
        tokio::time::sleep(lasts.mul_f64(random.gen_range(0.3..0.7))).await;
        store.befall_writers(&mut random).await;
        tokio::time::sleep(lasts.mul_f64(random.gen_range(0.1..0.3))).await;
        told.extend(processes.into_iter().flat_map(end_writer));
        store.befall(&mut random).await;
    }
    told.sort_by_key(|text| number_of(text));
    let twice = told
        .windows(2)
        .find(|both| number_of(&both[0]) == number_of(&both[1]));
    assert_eq!(twice, None);
    let engine = store.open().await;
    let Err(Fault::Trimmed(first)) = engine.get(&row(), 1).await else {
        panic!("cell 1 is there");
    };
    let left = engine.get(&row(), first).await.unwrap();
    let are_left = told.iter().filter(|text| number_of(text) >= first);
    for text in are_left {
        assert_eq!(left[(number_of(text) - first) as usize], text.as_bytes());
    }
    assert!(told.len() > 20, "{}", told.len());
}

/// In so many turns.
pub async fn what_became_of_a_set_is_found_where_replies_are_lost(store: &dyn Store, turns: u32) {
    let mut lossy = Vec::new();
    for seed in [0, 1] {
        lossy.push(LossyEngine::of(store.open().await, seed));
    }
    let engine: Arc<dyn Engine> = store.open().await;
    let mut random = StdRng::seed_from_u64(2);
    let mut known: Vec<Bytes> = Vec::new();
    for turn in 0..turns {
        let writer: usize = random.gen_range(0..2);
        let behind = random.gen_range(0..2).min(known.len());
        let first = (known.len() - behind) as u64 + 1;
        let told = texts(&[&format!("w{writer} {turn}"), "more"][..random.gen_range(1..3)]);
        let became = sure_set(&lossy[writer], &row(), first, &told).await;
        match became {
            Ok(Told::Set) if behind == 0 => known.extend(told),
            Ok(Told::Taken) if behind > 0 => {}
            other => panic!("turn {turn}, {behind} behind: {other:?}"),
        }
        assert_eq!(all(&*engine).await, known);
    }
}
