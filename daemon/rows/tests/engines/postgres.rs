//! Rows as a table of a PostgreSQL server, which tests start, kill, set up wrongly, and give a standby.
mod refusals;
mod server;
mod standby;
mod telling;
mod tls;

use crate::conformance::{self, all, row, set, texts};
use crate::stores::Store;
use async_trait::async_trait;
use bytes::Bytes;
use futures_util::future::join_all;
use rand::rngs::StdRng;
use rand::Rng;
use rows::postgres::Options;
use rows::{sure_trim, Engine, Fault, Postgres, RowName, Told};
use server::{HasRows, Server};
use std::sync::atomic::{AtomicU32, Ordering};
use std::sync::Arc;
use std::time::{Duration, Instant};
use tokio::time::{sleep, timeout};

/// The rows of a schema of its own.
struct Schema {
    server: Arc<Server>,
    name: String,
}

impl Schema {
    fn new() -> Schema {
        static COUNT: AtomicU32 = AtomicU32::new(0);
        Schema {
            server: Server::shared(),
            name: format!("group_{}", COUNT.fetch_add(1, Ordering::SeqCst)),
        }
    }

    fn options(&self) -> Options {
        self.server.options("operator", &self.name)
    }

    async fn open(&self) -> Postgres {
        open(self.options()).await
    }

    /// Sets cell 1, by a transaction that has not ended.
    fn begun(&self) -> String {
        let cells = format!("{}.cells", self.name);
        format!("BEGIN; INSERT INTO {cells} VALUES ('n1/g1', 1, 'other')")
    }
}

/// The rows of a server that is killed.
struct Killed(Server);

impl Killed {
    fn options(&self) -> Options {
        self.0.options("operator", SCHEMA)
    }
}

/// The schema of the rows, where a test has a server of its own.
const SCHEMA: &str = "cells_of_a_test";

/// Opens rows. A server that is about to start is asked again.
pub async fn open(options: Options) -> Postgres {
    loop {
        match Postgres::open(options.clone()).await {
            Ok(engine) => return engine,
            Err(Fault::Silent(_)) => sleep(Duration::from_millis(20)).await,
            Err(fault) => panic!("{fault}"),
        }
    }
}

/// Opens rows by what `Store::words` says behind the engine's kind.
pub async fn open_by(words: &str) -> Postgres {
    let (schema, server) = words.split_once(' ').unwrap();
    open(Options {
        schema: schema.to_owned(),
        ..Options::of(server)
    })
    .await
}

#[async_trait]
impl Store for Schema {
    async fn open(&self) -> Arc<dyn Engine> {
        Arc::new(Schema::open(self).await)
    }

    fn words(&self) -> String {
        unreachable!("no process of its own sets cells here")
    }
}

#[async_trait]
impl Store for Killed {
    async fn open(&self) -> Arc<dyn Engine> {
        Arc::new(open(self.options()).await)
    }

    fn words(&self) -> String {
        format!("postgres {SCHEMA} {}", self.0.words("operator"))
    }

    async fn befall_writers(&mut self, random: &mut StdRng) {
        self.0.kill();
        sleep(Duration::from_millis(random.gen_range(0..50))).await;
        self.0.go_on();
    }

    async fn befall(&mut self, random: &mut StdRng) {
        if random.gen() {
            self.0.kill();
            self.0.go_on();
        }
    }
}

#[tokio::test]
async fn cells_are_set_once_in_order_and_together() {
    conformance::cells_are_set_once_in_order_and_together(&Schema::new()).await;
}

#[tokio::test]
async fn a_trimmed_row_keeps_its_end_and_never_begins_anew() {
    conformance::a_trimmed_row_keeps_its_end_and_never_begins_anew(&Schema::new()).await;
}

#[tokio::test]
async fn a_text_that_is_no_line_is_refused() {
    conformance::a_text_that_is_no_line_is_refused(&Schema::new()).await;
}

#[tokio::test]
async fn a_reader_is_told_of_what_another_process_sets() {
    conformance::a_reader_is_told_of_what_another_process_sets(&Schema::new()).await;
}

#[tokio::test(flavor = "multi_thread")]
async fn of_writers_that_race_each_cell_has_one() {
    conformance::of_writers_that_race_each_cell_has_one(&Schema::new(), 200).await;
}

#[tokio::test]
async fn of_processes_and_servers_that_are_killed_each_cell_has_one_writer() {
    let mut store = Killed(Server::start(&[]));
    let lasts = Duration::from_millis(1500);
    conformance::of_processes_that_are_killed_each_cell_has_one_writer(&mut store, lasts).await;
}

#[tokio::test]
async fn of_a_row_that_is_trimmed_by_processes_that_are_killed_no_cell_is_set_again() {
    let lasts = Duration::from_millis(1500);
    let mut store = Killed(Server::start(&[]));
    conformance::of_a_row_that_is_trimmed_by_processes_that_are_killed_no_cell_is_set_again(
        &mut store, lasts,
    )
    .await;
}

#[tokio::test]
async fn what_became_of_a_set_is_found_where_replies_are_lost() {
    let store = Schema::new();
    conformance::what_became_of_a_set_is_found_where_replies_are_lost(&store, 40).await;
}

#[tokio::test]
async fn what_is_too_much_for_one_set_is_refused() {
    let store = Schema::new();
    let engine = store.open().await;
    let told = engine.set(&row(), 1, &vec![Bytes::new(); 101]).await;
    assert!(matches!(told, Err(Fault::TooMuch(_))), "{told:?}");
    let long = Bytes::from(vec![b'a'; 500_000]);
    let told = engine
        .set(&row(), 1, &[long.clone(), long.clone(), "a".into()])
        .await;
    assert!(matches!(told, Err(Fault::TooMuch(_))), "{told:?}");
    assert_eq!(all(&engine).await, texts(&[]));
    let told = engine.set(&row(), 1, &[long.clone(), long.clone()]).await;
    assert_eq!(told, Ok(Told::Set));
    let told = engine.set(&row(), 3, &vec![Bytes::new(); 100]).await;
    assert_eq!(told, Ok(Told::Set));
    assert_eq!(engine.get(&row(), 2).await.unwrap().len(), 101);
}

#[tokio::test]
async fn a_text_is_kept_byte_by_byte() {
    let store = Schema::new();
    let engine = store.open().await;
    let all_bytes: Vec<u8> = { 0..=255 }
        .filter(|byte| !matches!(byte, b'\n' | b'\t'))
        .collect();
    let told = [Bytes::from(all_bytes), Bytes::from_static(b"\\x00 ' \xff")];
    assert_eq!(engine.set(&row(), 1, &told).await, Ok(Told::Set));
    assert_eq!(engine.get(&row(), 1).await.unwrap(), told);
}

#[tokio::test]
async fn a_full_row_is_read_whole() {
    let store = Schema::new();
    let engine = store.open().await;
    let statement = "cells SELECT 'n1/g1', number, convert_to(repeat(number::text || ' ', 60), 'UTF8') FROM generate_series(1, 65536) AS number";
    let statement = format!("INSERT INTO {}.{statement}", store.name);
    store.server.run(&statement).await;
    let there = all(&engine).await;
    assert_eq!(there.len(), 65_536);
    assert_eq!(there[65_535], "65536 ".repeat(60).as_bytes());
    assert_eq!(set(&engine, 65_536, &["a"]).await, Ok(Told::Taken));
    assert_eq!(set(&engine, 65_537, &["a", "b"]).await, Ok(Told::Set));
    assert_eq!(engine.trim(&row(), 65_537).await, Ok(()));
    assert_eq!(
        engine.get(&row(), 65_536).await,
        Err(Fault::Trimmed(65_537))
    );
    assert_eq!(engine.get(&row(), 65_537).await, Ok(texts(&["a", "b"])));
}

#[tokio::test]
async fn processes_that_find_no_table_make_one_together() {
    let store = Schema::new();
    let opening: Vec<_> = { 0..6 }
        .map(|_| {
            let options = store.options();
            tokio::spawn(Postgres::open(options))
        })
        .collect();
    for (number, opened) in opening.into_iter().enumerate() {
        let engine = opened.await.unwrap().unwrap();
        let told = engine
            .set(
                &RowName::of_node("n1", number as u64).unwrap(),
                1,
                &texts(&["a"]),
            )
            .await;
        assert_eq!(told, Ok(Told::Set));
    }
}

/// A set of cell 1 by the engine while another transaction has set it, and ends so.
async fn beside(store: &Schema, end: &str) -> Result<Told, Fault> {
    let engine = Arc::new(store.open().await);
    let other = store.server.operator().await;
    other.batch_execute(&store.begun()).await.unwrap();
    let setting = Arc::clone(&engine);
    let mut setting = tokio::spawn(async move { set(&*setting, 1, &["one", "two"]).await });
    let waited = timeout(Duration::from_millis(300), &mut setting).await;
    assert!(waited.is_err(), "{waited:?}");
    assert_eq!(all(&*engine).await, texts(&[]));
    other.batch_execute(end).await.unwrap();
    setting.await.unwrap()
}

#[tokio::test]
async fn of_two_sets_of_one_cell_the_second_waits_for_what_becomes_of_the_first() {
    let store = Schema::new();
    assert_eq!(beside(&store, "ROLLBACK").await, Ok(Told::Set));
    assert_eq!(all(&store.open().await).await, texts(&["one", "two"]));
    let delete = format!("DELETE FROM {}.cells", store.name);
    store.server.run(&delete).await;
    assert_eq!(beside(&store, "COMMIT").await, Ok(Told::Taken));
    assert_eq!(all(&store.open().await).await, texts(&["other"]));
}

/// Has each set of the text `paused` wait amid its statement.
const PAUSE: &str = "CREATE FUNCTION SCHEMA.pause() RETURNS trigger LANGUAGE plpgsql AS $$ BEGIN PERFORM pg_sleep(3); RETURN NEW; END $$;
    CREATE TRIGGER pause BEFORE INSERT ON SCHEMA.cells FOR EACH ROW WHEN (NEW.text = 'paused'::bytea) EXECUTE FUNCTION SCHEMA.pause()";

#[tokio::test]
async fn a_set_that_began_before_the_row_had_a_cell_sets_none_that_is_removed() {
    let store = Schema::new();
    let (engine, paused) = (store.open().await, store.open().await);
    store
        .server
        .run(&PAUSE.replace("SCHEMA", &store.name))
        .await;
    let setting = tokio::spawn(async move { set(&paused, 1, &["paused"]).await });
    let operator = store.server.operator().await;
    let sleeping = "SELECT FROM pg_stat_activity WHERE wait_event = 'PgSleep'";
    while operator.query(sleeping, &[]).await.unwrap().is_empty() {
        sleep(Duration::from_millis(10)).await;
    }
    assert_eq!(set(&engine, 1, &["1", "2", "3"]).await, Ok(Told::Set));
    sure_trim(&engine, &row(), 3).await.unwrap();
    assert_eq!(setting.await.unwrap(), Ok(Told::Taken));
    assert_eq!(engine.get(&row(), 1).await, Err(Fault::Trimmed(3)));
    assert_eq!(engine.get(&row(), 3).await, Ok(texts(&["3"])));
}

#[tokio::test]
async fn who_waits_for_a_cell_in_vain_has_set_none() {
    let store = Schema::new();
    let engine = open(Options {
        answer_timeout: Duration::from_secs(1),
        ..store.options()
    })
    .await;
    let other = store.server.operator().await;
    other.batch_execute(&store.begun()).await.unwrap();
    let told = set(&engine, 1, &["one"]).await;
    assert!(matches!(told, Err(Fault::Silent(_))), "{told:?}");
    other.batch_execute("ROLLBACK").await.unwrap();
    assert_eq!(all(&engine).await, texts(&[]));
    assert_eq!(set(&engine, 1, &["one"]).await, Ok(Told::Set));
}

/// The longest that the server allows.
const COMMIT_DELAY: Duration = Duration::from_millis(100);

#[tokio::test]
async fn commits_wait_for_one_another_where_the_server_says_so_however_few_there_are() {
    let delay = format!("commit_delay={}", COMMIT_DELAY.as_micros());
    let store = Killed(Server::start(&[&delay]));
    let mut engines = Vec::new();
    for node in ["n1", "n2", "n3", "n4", "n5", "n6", "n7", "n8"] {
        let row = RowName::of_node(node, 1).unwrap();
        engines.push((row, open(store.options()).await));
    }
    let set_all = |engines: Vec<(RowName, Postgres)>| {
        let sets = engines.into_iter().map(|(row, engine)| async move {
            assert_eq!(engine.set(&row, 1, &texts(&["it"])).await, Ok(Told::Set));
        });
        join_all(sets)
    };
    let others = engines.split_off(1);
    let began = Instant::now();
    set_all(engines).await;
    assert!(began.elapsed() >= COMMIT_DELAY);
    let began = Instant::now();
    set_all(others).await;
    assert!(began.elapsed() < COMMIT_DELAY * 7);
}

#[tokio::test]
async fn an_engine_has_a_connection_that_sets_and_one_that_reads_and_hears() {
    let store = Killed(Server::start(&[]));
    let engine = open(store.options()).await;
    assert_eq!(set(&engine, 1, &["one"]).await, Ok(Told::Set));
    assert_eq!(all(&engine).await, texts(&["one"]));
    let operator = store.0.operator().await;
    let others = "SELECT FROM pg_stat_activity WHERE backend_type = 'client backend' AND pid <> pg_backend_pid()";
    // That by which the table was made ends a little later.
    let ended = async {
        while operator.query(others, &[]).await.unwrap().len() > 2 {
            sleep(Duration::from_millis(10)).await;
        }
    };
    timeout(Duration::from_secs(60), ended).await.unwrap();
    assert_eq!(operator.query(others, &[]).await.unwrap().len(), 2);
    assert_eq!(set(&engine, 2, &["two"]).await, Ok(Told::Set));
    assert_eq!(all(&engine).await, texts(&["one", "two"]));
}

#[tokio::test]
async fn tidings_come_again_after_the_connection_that_hears_was_ended() {
    let store = Killed(Server::start(&[]));
    let (writer, reader) = (open(store.options()).await, open(store.options()).await);
    assert_eq!(set(&writer, 1, &["one"]).await, Ok(Told::Set));
    let mut tidings = reader.follow(&row()).await.unwrap();
    let ended = "SELECT pg_terminate_backend(pid) FROM pg_stat_activity WHERE query LIKE '%hear_cells%' AND pid <> pg_backend_pid()";
    let ended = store.0.operator().await.query(ended, &[]).await.unwrap();
    assert!(!ended.is_empty());
    // Of what was set meanwhile nobody has told; that the connection was made anew is a tiding itself.
    let long = Duration::from_secs(60);
    timeout(long / 2, tidings.wait(2, long)).await.unwrap();
    assert_eq!(set(&writer, 2, &["two"]).await, Ok(Told::Set));
    timeout(long / 2, tidings.wait(2, long)).await.unwrap();
    assert_eq!(all(&reader).await, texts(&["one", "two"]));
}

#[tokio::test]
async fn tidings_come_again_after_the_server_was_killed() {
    let mut store = Killed(Server::start(&[]));
    let (writer, reader) = (open(store.options()).await, open(store.options()).await);
    let mut tidings = reader.follow(&row()).await.unwrap();
    store.0.kill();
    let told = set(&writer, 1, &["one"]).await;
    assert!(
        matches!(told, Ok(Told::Unsure) | Err(Fault::Silent(_))),
        "{told:?}"
    );
    store.0.go_on();
    // That the connection was made anew is a tiding itself.
    let long = Duration::from_secs(60);
    timeout(long / 2, tidings.wait(1, long)).await.unwrap();
    assert_eq!(set(&writer, 1, &["one"]).await, Ok(Told::Set));
    timeout(long / 2, tidings.wait(1, long)).await.unwrap();
    assert_eq!(all(&reader).await, texts(&["one"]));
}
