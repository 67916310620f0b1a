//! A server with a synchronous standby.
use super::server::{HasRows, Server};
use super::{all, open, row, set, texts, SCHEMA};
use rows::postgres::Options;
use rows::{sure_set, Engine, Fault, Postgres, Told};
use std::sync::Arc;
use std::time::{Duration, Instant};
use tokio::time::{sleep, timeout};

struct Pair {
    primary: Server,
    standby: Server,
}

impl Pair {
    async fn start() -> Pair {
        let primary = Server::start(&["hot_standby=on"]);
        let standby = Server::standby_of(&primary, "standby");
        let words = "ALTER SYSTEM SET synchronous_standby_names = 'standby'";
        primary.run(words).await;
        primary.run("SELECT pg_reload_conf()").await;
        let pair = Pair { primary, standby };
        pair.asked("SELECT EXISTS (SELECT FROM pg_stat_replication WHERE sync_state = 'sync')")
            .await;
        pair
    }

    /// Returns once the primary answers yes.
    async fn asked(&self, question: &str) {
        let began = Instant::now();
        let client = self.primary.operator().await;
        while !client
            .query_one(question, &[])
            .await
            .unwrap()
            .get::<_, bool>(0)
        {
            assert!(began.elapsed() < Duration::from_secs(60), "{question}");
            sleep(Duration::from_millis(20)).await;
        }
    }

    /// Returns once a commit waits for the standby.
    async fn a_commit_waits(&self) {
        self.asked("SELECT EXISTS (SELECT FROM pg_stat_activity WHERE wait_event = 'SyncRep')")
            .await;
    }

    fn options(&self) -> Options {
        Options {
            answer_timeout: Duration::from_secs(2),
            ..self.primary.options("operator", SCHEMA)
        }
    }
}

#[tokio::test]
async fn a_set_is_told_when_the_standby_has_it() {
    let mut pair = Pair::start().await;
    let engine = Arc::new(open(pair.options()).await);
    assert_eq!(set(&*engine, 1, &["one"]).await, Ok(Told::Set));
    pair.standby.kill();
    assert_eq!(set(&*engine, 2, &["two"]).await, Ok(Told::Unsure));
    let reader = open(pair.options()).await;
    // What is not told yet is not shown either; of what is shown it is not known here that the standby has it.
    let seen = reader.get(&row(), 2).await;
    assert_eq!(seen, Ok(texts(&[])));
    let setting = Arc::clone(&engine);
    let mut setting =
        tokio::spawn(async move { sure_set(&*setting, &row(), 2, &texts(&["two"])).await });
    let waited = timeout(Duration::from_secs(3), &mut setting).await;
    assert!(waited.is_err(), "{waited:?}");
    pair.standby.go_on();
    assert_eq!(setting.await.unwrap(), Ok(Told::Set));
    assert_eq!(all(&reader).await, texts(&["one", "two"]));
}

#[tokio::test]
async fn no_text_comes_along_where_a_set_waits_for_a_standby() {
    let pair = Pair::start().await;
    let (writer, reader) = (open(pair.options()).await, open(pair.options()).await);
    let mut tidings = reader.follow(&row()).await.unwrap();
    let long = Duration::from_secs(60);
    assert_eq!(set(&writer, 1, &["one"]).await, Ok(Told::Set));
    let told = timeout(long / 2, tidings.wait(1, long)).await.unwrap();
    assert!(told.is_empty(), "{told:?}");
    assert_eq!(all(&reader).await, texts(&["one"]));
}

#[tokio::test]
async fn what_the_standby_may_not_have_is_not_shown() {
    let mut pair = Pair::start().await;
    pair.primary
        .run("CREATE ROLE quiet LOGIN SUPERUSER; ALTER ROLE quiet SET client_min_messages = error")
        .await;
    let options = Options {
        answer_timeout: Duration::from_secs(20),
        ..pair.primary.options("quiet", SCHEMA)
    };
    let engine = Arc::new(open(options).await);
    assert_eq!(set(&*engine, 1, &["one"]).await, Ok(Told::Set));
    let reader = open(pair.options()).await;
    assert_eq!(all(&reader).await, texts(&["one"]));
    pair.standby.kill();
    let setting = Arc::clone(&engine);
    let mut setting =
        tokio::spawn(async move { sure_set(&*setting, &row(), 2, &texts(&["two"])).await });
    pair.a_commit_waits().await;
    let cancel = "SELECT pg_cancel_backend(pid) FROM pg_stat_activity WHERE wait_event = 'SyncRep'";
    pair.primary.run(cancel).await;
    // The commit is made here alone, which only a warning tells; a writer that looks what became of its set is not told either.
    let waited = timeout(Duration::from_secs(3), &mut setting).await;
    assert!(waited.is_err(), "{waited:?}");
    let there = pair.primary.operator().await;
    let count = "SELECT count(*) FROM cells_of_a_test.cells";
    let count: i64 = there.query_one(count, &[]).await.unwrap().get(0);
    assert_eq!(count, 2);
    let seen = reader.get(&row(), 1).await;
    assert!(matches!(seen, Err(Fault::Silent(_))), "{seen:?}");
    pair.standby.go_on();
    assert_eq!(setting.await.unwrap(), Ok(Told::Set));
    assert_eq!(all(&reader).await, texts(&["one", "two"]));
}

#[tokio::test]
async fn a_primary_that_crashed_shows_nothing_that_the_standby_may_not_have() {
    let mut pair = Pair::start().await;
    let engine = open(pair.options()).await;
    assert_eq!(set(&engine, 1, &["one"]).await, Ok(Told::Set));
    pair.standby.kill();
    assert_eq!(set(&engine, 2, &["two"]).await, Ok(Told::Unsure));
    pair.primary.kill();
    pair.primary.go_on();
    let reader = open(pair.options()).await;
    for _ in 0..3 {
        let seen = reader.get(&row(), 1).await;
        assert!(matches!(seen, Err(Fault::Silent(_))), "{seen:?}");
    }
    // Reads in vain leave nothing behind that waits.
    pair.asked("SELECT NOT EXISTS (SELECT FROM pg_stat_activity WHERE wait_event = 'SyncRep')")
        .await;
    pair.standby.go_on();
    let found = sure_set(&engine, &row(), 2, &texts(&["two"])).await;
    assert!(matches!(found, Ok(Told::Taken)), "{found:?}");
    assert_eq!(all(&reader).await, texts(&["one", "two"]));
}

#[tokio::test]
async fn a_standby_that_is_promoted_has_all_that_was_told() {
    let mut pair = Pair::start().await;
    let (primary, standby) = (pair.primary.path().display(), pair.standby.path().display());
    let both = format!("host={primary},{standby} user=operator dbname=postgres");
    let both = Options {
        schema: SCHEMA.to_owned(),
        ..Options::of(both)
    };
    let engine = open(both).await;
    for number in 1..=20 {
        let told = set(&engine, number, &[&number.to_string()]).await;
        assert_eq!(told, Ok(Told::Set));
    }
    // A standby takes no set, and what it shows may be old.
    let standby = pair.standby.options("operator", SCHEMA);
    let opened = Postgres::open(standby).await;
    assert!(matches!(opened, Err(Fault::Silent(_))));
    pair.primary.kill();
    pair.standby.run("SELECT pg_promote()").await;
    let told = sure_set(&engine, &row(), 21, &texts(&["21"])).await;
    assert_eq!(told, Ok(Told::Set));
    let expected: Vec<String> = (1..=21).map(|number: u64| number.to_string()).collect();
    assert_eq!(all(&engine).await, expected);
}
