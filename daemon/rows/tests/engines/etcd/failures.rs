//! What befalls a cluster: it is killed, cut off, filled up, compacted, and taken back to what it was.
use super::cluster::{open, words_of, Cluster, HasRows, Setup};
use super::one;
use crate::conformance::{self, all, row, set, texts};
use crate::stores::Store;
use async_trait::async_trait;
use bytes::Bytes;
use rand::rngs::StdRng;
use rand::{Rng, SeedableRng};
use rows::etcd::Options;
use rows::{Engine, Etcd, Fault, RowName, Tidings, Told};
use servers::host::Host;
use servers::proxy::Proxy;
use std::path::Path;
use std::process::Command;
use std::sync::Arc;
use std::time::{Duration, Instant};

const LARGE: usize = 150_000;

fn large(number: u64) -> Bytes {
    let number = number.to_string();
    number.repeat(LARGE / number.len()).into()
}

/// Sets large cells in a row of its own until the store is full, and gives how many were told to be set.
async fn fill(engine: Arc<Etcd>, writer: usize) -> (RowName, usize) {
    let row = RowName::of_node(&format!("n{writer}"), 1).unwrap();
    for number in 1.. {
        match rows::sure_set(&*engine, &row, number, &[large(number)]).await {
            Ok(Told::Set) => {}
            Err(Fault::Full) => return (row, number as usize - 1),
            other => panic!("{other:?}"),
        }
    }
    unreachable!("it has a quota")
}

#[tokio::test(flavor = "multi_thread")]
async fn a_full_store_holds_just_what_was_told_to_be_set_and_is_used_again_with_more_room() {
    let mut cluster = Cluster::start(1, Setup::of(&["--quota-backend-bytes=16777216"])).await;
    let engine = Arc::new(open(cluster.options()).await);
    let filling: Vec<_> = (0..12)
        .map(|writer| tokio::spawn(fill(Arc::clone(&engine), writer)))
        .collect();
    let mut rows = Vec::new();
    for each in filling {
        rows.push(each.await.unwrap());
    }
    for (row, told) in &rows {
        assert_eq!(engine.get(row, 1).await.unwrap().len(), *told, "{row}");
    }
    let (row, told) = &rows[0];
    let told = *told as u64;
    assert_eq!(engine.set(row, 1, &[large(1)]).await, Ok(Told::Taken));
    let full = engine.set(row, told + 1, &texts(&["small"])).await;
    assert_eq!(full, Err(Fault::Full));
    cluster.kill_all();
    cluster.set_up(Setup::of(&["--quota-backend-bytes=33554432"]));
    cluster.start_all();
    cluster.answers().await;
    cluster.operate("alarm disarm");
    let again = sure(&*engine, row, told + 1, "small").await;
    assert_eq!(again, Ok(Told::Set));
}

pub async fn sure(
    engine: &dyn Engine,
    row: &RowName,
    first: u64,
    text: &str,
) -> Result<Told, Fault> {
    rows::sure_set(engine, row, first, &texts(&[text])).await
}

#[tokio::test]
async fn a_store_that_others_have_filled_is_used_again_once_it_is_compacted() {
    let cluster = Cluster::start(1, Setup::of(&["--quota-backend-bytes=4194304"])).await;
    let engine = open(cluster.options()).await;
    assert_eq!(set(&engine, 1, &["one"]).await, Ok(Told::Set));
    let ended = RowName::of_node("n1", 10).unwrap();
    let told = engine.set(&ended, 1, &texts(&["one", "end"])).await;
    assert_eq!(told, Ok(Told::Set));
    let large = "x".repeat(100_000);
    let put = |_: &i32| !cluster.etcdctl(&["put", "other", &large]).is_empty();
    let revision = (0..60).filter(put).count();
    assert_eq!(set(&engine, 2, &["two"]).await, Err(Fault::Full));
    assert_eq!(set(&engine, 3, &["three"]).await, Err(Fault::Full));
    assert_eq!(set(&engine, 1, &["one"]).await, Ok(Told::Taken));
    assert_eq!(all(&engine).await, texts(&["one"]));
    assert_eq!(engine.trim(&ended, 2).await, Ok(()));
    assert_eq!(engine.get(&ended, 1).await, Err(Fault::Trimmed(2)));
    cluster.operate(&format!("compact {revision}\ndefrag\nalarm disarm"));
    assert_eq!(set(&engine, 2, &["two"]).await, Ok(Told::Set));
    assert_eq!(all(&engine).await, texts(&["one", "two"]));
}

/// Rows that others keep.
struct Opened(Options);

#[async_trait]
impl Store for Opened {
    async fn open(&self) -> Arc<dyn Engine> {
        Arc::new(Patient(open(self.0.clone()).await))
    }

    fn words(&self) -> String {
        unreachable!("another process has no part of it")
    }
}

/// An engine that is asked again where it is silent.
struct Patient(Etcd);

#[async_trait]
impl Engine for Patient {
    async fn set(&self, row: &RowName, first: u64, texts: &[Bytes]) -> Result<Told, Fault> {
        self.0.set(row, first, texts).await
    }

    async fn get(&self, row: &RowName, first: u64) -> Result<Vec<Bytes>, Fault> {
        loop {
            match self.0.get(row, first).await {
                Err(Fault::Silent(_)) => tokio::time::sleep(Duration::from_millis(20)).await,
                told => return told,
            }
        }
    }

    async fn trim(&self, row: &RowName, last: u64) -> Result<(), Fault> {
        self.0.trim(row, last).await
    }

    async fn follow(&self, row: &RowName) -> Result<Box<dyn Tidings>, Fault> {
        self.0.follow(row).await
    }
}

/// Cuts all connections again and again, for a second about.
async fn cut(proxies: &[Proxy], random: &mut StdRng) {
    for _ in 0..10 {
        tokio::time::sleep(Duration::from_millis(random.gen_range(20..180))).await;
        proxies.iter().for_each(Proxy::cut);
    }
}

#[tokio::test(flavor = "multi_thread")]
async fn over_leaders_that_are_killed_and_replies_that_are_lost_each_cell_has_one_writer() {
    let mut cluster = Cluster::start(3, Setup::default()).await;
    let mut random = StdRng::seed_from_u64(1);
    let here = Host::default();
    let before = |server: String| Proxy::on(&here, &server);
    let proxies: Vec<Proxy> = cluster.addresses().map(before).collect();
    let url = |proxy: &Proxy| format!("http://{}", proxy.address()).parse().unwrap();
    let urls = proxies.iter().map(url);
    let store = Opened(Options {
        endpoints: urls.collect(),
        reply: Duration::from_secs(5),
        ..cluster.options()
    });
    let racing = tokio::spawn(async move {
        conformance::of_writers_that_race_each_cell_has_one(&store, 600).await;
    });
    let mut killed = 0;
    while !racing.is_finished() && killed < 3 {
        cut(&proxies, &mut random).await;
        let leader = cluster.leader();
        cluster.kill_member(leader);
        cut(&proxies, &mut random).await;
        cluster.start_member(leader);
        killed += 1;
    }
    assert!(killed > 0);
    racing.await.unwrap();
}

/// Waits for a tiding that does not come by a time that is over.
pub async fn is_told(tidings: &mut dyn Tidings) {
    let began = Instant::now();
    tidings.wait(1, Duration::from_secs(60)).await;
    assert!(began.elapsed() < Duration::from_secs(30));
}

#[tokio::test]
async fn a_follower_is_told_over_kills_and_compactions() {
    let mut cluster = one().await;
    let engine = Patient(open(cluster.options()).await);
    let mut tidings = engine.follow(&row()).await.unwrap();
    let mut number = 0;
    for _ in 0..3 {
        for text in ["one", "two", "three"] {
            number += 1;
            let told = sure(&engine, &row(), number, text).await;
            assert_eq!(told, Ok(Told::Set));
        }
        // All three are told by one tiding, or two: none is left over.
        is_told(&mut *tidings).await;
        tidings.wait(1, Duration::from_millis(100)).await;
        let began = Instant::now();
        tidings.wait(1, Duration::from_millis(100)).await;
        assert!(began.elapsed() >= Duration::from_millis(100));
        cluster.kill_all();
        cluster.start_all();
        cluster.answers().await;
        let revision = engine.get(&row(), 1).await.unwrap().len() + 1;
        cluster.operate(&format!("compact {revision}"));
        // Whatever was set while nothing was told is asked for now.
        is_told(&mut *tidings).await;
    }
}

#[tokio::test]
async fn a_follower_is_told_by_another_member_once_its_own_is_gone() {
    let mut cluster = Cluster::start(3, Setup::default()).await;
    let (reader, writer) = (open(cluster.options()).await, open(cluster.options()).await);
    let mut tidings = reader.follow(&row()).await.unwrap();
    // The first one named is asked by both.
    cluster.kill_member(0);
    is_told(&mut *tidings).await;
    assert_eq!(sure(&writer, &row(), 1, "one").await, Ok(Told::Set));
    is_told(&mut *tidings).await;
    assert_eq!(Patient(reader).get(&row(), 1).await, Ok(texts(&["one"])));
}

#[tokio::test]
async fn a_member_that_hangs_is_left_for_the_next() {
    let cluster = Cluster::start(3, Setup::default()).await;
    let options = Options {
        reply: Duration::from_secs(1),
        ..cluster.options()
    };
    let reader = Patient(open(options.clone()).await);
    let writer = open(options).await;
    let mut tidings = reader.follow(&row()).await.unwrap();
    cluster.stop_member(0);
    assert_eq!(sure(&writer, &row(), 1, "one").await, Ok(Told::Set));
    assert_eq!(all(&reader).await, texts(&["one"]));
    is_told(&mut *tidings).await;
    tidings.wait(1, Duration::from_millis(100)).await;
    assert_eq!(sure(&writer, &row(), 2, "two").await, Ok(Told::Set));
    is_told(&mut *tidings).await;
}

#[tokio::test]
async fn a_store_that_went_back_is_told() {
    let mut cluster = one().await;
    let engine = open(cluster.options()).await;
    assert_eq!(set(&engine, 1, &["one"]).await, Ok(Told::Set));
    let (held, copy) = (cluster.folder_of("e0"), cluster.folder_of("copy"));
    let copied = |from: &Path, to: &Path| {
        let told = Command::new("cp").arg("-a").args([from, to]).status();
        assert!(told.unwrap().success());
    };
    cluster.kill_all();
    copied(&held, &copy);
    cluster.start_all();
    cluster.answers().await;
    assert_eq!(sure(&engine, &row(), 2, "two").await, Ok(Told::Set));
    cluster.kill_all();
    std::fs::remove_dir_all(&held).unwrap();
    copied(&copy, &held);
    cluster.start_all();
    cluster.answers().await;
    let told = sure(&engine, &row(), 3, "three").await;
    assert!(matches!(told, Err(Fault::Broken(_))), "{told:?}");
    let told = engine.get(&row(), 1).await;
    assert!(matches!(told, Err(Fault::Broken(_))), "{told:?}");
    // Whoever has seen no more is told nothing: the hash in the next cell tells the others.
    assert_eq!(all(&open(cluster.options()).await).await, texts(&["one"]));
}

#[tokio::test]
async fn a_store_that_was_made_anew_is_told() {
    let mut cluster = one().await;
    let engine = Patient(open(cluster.options()).await);
    assert_eq!(set(&engine, 1, &["one"]).await, Ok(Told::Set));
    cluster.kill_all();
    std::fs::remove_dir_all(cluster.folder_of("e0")).unwrap();
    cluster.set_up(Setup::of(&["--initial-cluster-token=other"]));
    cluster.start_all();
    cluster.answers().await;
    let told = sure(&engine, &row(), 1, "one").await;
    assert!(matches!(told, Err(Fault::Broken(_))), "{told:?}");
    let told = engine.get(&row(), 1).await;
    assert!(matches!(told, Err(Fault::Broken(_))), "{told:?}");
}

#[tokio::test]
async fn a_cell_that_somebody_has_taken_away_is_told() {
    let cluster = one().await;
    let engine = open(cluster.options()).await;
    let told = set(&engine, 1, &["one", "two", "three"]).await;
    assert_eq!(told, Ok(Told::Set));
    cluster.operate("del /groups/ward/n1/g1/00000000000000000002");
    let told = engine.get(&row(), 1).await;
    assert!(matches!(told, Err(Fault::Broken(_))), "{told:?}");
    assert_eq!(engine.get(&row(), 3).await, Ok(texts(&["three"])));
    let told = set(&engine, 2, &["other", "more"]).await;
    assert!(matches!(told, Err(Fault::Broken(_))), "{told:?}");
}

#[tokio::test]
async fn each_set_is_synced_before_it_is_told() {
    let trace = tempfile::NamedTempFile::new().unwrap();
    let path = trace.path().display().to_string();
    let setup = Setup {
        by: words_of(&["strace", "-D", "-f", "-e", "trace=fdatasync", "-o", &path]),
        ..Setup::default()
    };
    let cluster = Cluster::start(1, setup).await;
    let engine = open(cluster.options()).await;
    let synced = || {
        let told = std::fs::read_to_string(&path).unwrap();
        told.matches("fdatasync").count()
    };
    for number in 1..20 {
        let before = synced();
        assert_eq!(set(&engine, number, &["one"]).await, Ok(Told::Set));
        assert!(synced() > before);
    }
}
