//! Tidings with the texts of cells: who is told, and who can tell.
use super::server::{HasRows, Server};
use super::{all, open, row, set, texts, Schema, SCHEMA};
use bytes::Bytes;
use rows::{Engine, Postgres, Tidings, Told};
use std::time::Duration;
use tokio::time::timeout;
use tokio_postgres::{Client, NoTls};

const LONG: Duration = Duration::from_secs(60);

/// What came of a row, before it was read again in any case.
async fn told(tidings: &mut Box<dyn Tidings>, next: u64) -> Vec<Bytes> {
    let told = timeout(LONG / 2, tidings.wait(next, LONG)).await;
    told.expect("a tiding comes")
}

/// Whether nothing comes for a while.
async fn is_silent(tidings: &mut Box<dyn Tidings>, next: u64) -> bool {
    let waited = timeout(Duration::from_millis(300), tidings.wait(next, LONG)).await;
    waited.is_err()
}

async fn sets(engine: &Postgres, first: u64, cells: &[&str]) {
    assert_eq!(set(engine, first, cells).await, Ok(Told::Set));
}

#[tokio::test]
async fn the_texts_of_cells_come_along_once() {
    let store = Schema::new();
    let (writer, reader) = (store.open().await, store.open().await);
    let mut tidings = reader.follow(&row()).await.unwrap();
    sets(&writer, 1, &["one"]).await;
    assert_eq!(told(&mut tidings, 1).await, texts(&["one"]));
    sets(&writer, 2, &["two", "three"]).await;
    let mut come = Vec::new();
    while come.len() < 2 {
        come.extend(told(&mut tidings, 2 + come.len() as u64).await);
    }
    assert_eq!(come, texts(&["two", "three"]));
    assert!(is_silent(&mut tidings, 4).await);
    // Who follows the row of its own cells is told of them too.
    let mut own = writer.follow(&row()).await.unwrap();
    sets(&writer, 4, &["four"]).await;
    assert_eq!(told(&mut own, 4).await, texts(&["four"]));
}

#[tokio::test]
async fn a_long_text_does_not_come_along_and_any_byte_does() {
    let store = Schema::new();
    let (writer, reader) = (store.open().await, store.open().await);
    let mut tidings = reader.follow(&row()).await.unwrap();
    sets(&writer, 1, &[&"a".repeat(7_801)]).await;
    assert!(told(&mut tidings, 1).await.is_empty());
    let bytes = [Bytes::from_static(b"\0\x01 \\ ' \xff")];
    assert_eq!(writer.set(&row(), 2, &bytes).await, Ok(Told::Set));
    assert_eq!(told(&mut tidings, 2).await, bytes);
    sets(&writer, 3, &[&"b".repeat(7_800)]).await;
    assert_eq!(told(&mut tidings, 3).await, texts(&[&"b".repeat(7_800)]));
}

#[tokio::test]
async fn behind_sixteen_processes_numbers_are_told() {
    let server = Server::start(&["max_connections=100"]);
    let options = || server.options("operator", SCHEMA);
    let writer = open(options()).await;
    let mut readers = Vec::new();
    for _ in 0..16 {
        readers.push(open(options()).await);
    }
    let mut first = readers[0].follow(&row()).await.unwrap();
    let mut last = readers[15].follow(&row()).await.unwrap();
    sets(&writer, 1, &["one"]).await;
    assert_eq!(told(&mut first, 1).await, texts(&["one"]));
    assert!(told(&mut last, 1).await.is_empty());
    assert_eq!(all(&readers[15]).await, texts(&["one"]));
    // The places of who is gone are free.
    drop(readers);
    let there = "SELECT EXISTS (SELECT FROM cells_of_a_test.hearers, pg_stat_activity WHERE pid = process OFFSET 1)";
    let operator = server.operator().await;
    while { operator.query_one(there, &[]).await }.unwrap().get(0) {
        tokio::time::sleep(Duration::from_millis(10)).await;
    }
    let reader = open(options()).await;
    let mut tidings = reader.follow(&row()).await.unwrap();
    sets(&writer, 2, &["two"]).await;
    assert_eq!(told(&mut tidings, 2).await, texts(&["two"]));
}

/// The rights that the page of the engine gives to a node; and two roles that have less.
const RIGHTS: &str = r#"
    CREATE ROLE n1 LOGIN; CREATE ROLE n2 LOGIN; CREATE ROLE reader LOGIN; CREATE ROLE stranger LOGIN;
    GRANT USAGE ON SCHEMA cells_of_a_test TO n1, n2, reader;
    GRANT SELECT ON cells_of_a_test.cells TO n1, n2, reader;
    GRANT INSERT ON cells_of_a_test.cells TO n1, n2;
    ALTER TABLE cells_of_a_test.cells ENABLE ROW LEVEL SECURITY;
    CREATE POLICY all_read ON cells_of_a_test.cells FOR SELECT USING (true);
    CREATE POLICY n1_sets ON cells_of_a_test.cells FOR INSERT TO n1 WITH CHECK (starts_with(row, 'n1/'));
    CREATE POLICY n2_sets ON cells_of_a_test.cells FOR INSERT TO n2 WITH CHECK (starts_with(row, 'n2/'));
    GRANT EXECUTE ON FUNCTION cells_of_a_test.hear_cells, cells_of_a_test.tell_cells TO n1, n2"#;

async fn client(server: &Server, role: &str) -> Client {
    let words = server.words(role);
    let (client, connection) = tokio_postgres::connect(&words, NoTls).await.unwrap();
    tokio::spawn(connection);
    client
}

#[tokio::test]
async fn the_server_alone_tells_texts_and_to_nodes_alone() {
    let server = Server::start(&[]);
    let of = |role: &str| server.options(role, SCHEMA);
    drop(open(of("operator")).await);
    server.run(RIGHTS).await;
    let (n1, n2) = (open(of("n1")).await, open(of("n2")).await);
    let mut tidings = n2.follow(&row()).await.unwrap();
    for (role, refused) in [
        ("n2", "SELECT FROM cells_of_a_test.hearers"),
        ("n2", "INSERT INTO cells_of_a_test.hearers VALUES (1, 'a')"),
        ("reader", "SELECT cells_of_a_test.hear_cells()"),
        ("stranger", "SELECT cells_of_a_test.hear_cells()"),
        (
            "reader",
            "SELECT cells_of_a_test.tell_cells('n1/g1', 1, 1, '')",
        ),
    ] {
        let error = { client(&server, role).await }.batch_execute(refused).await;
        let error = error.unwrap_err();
        assert_eq!(error.code().unwrap().code(), "42501", "{role}: {refused}");
    }
    // What anybody tells is no text; and what a node has told is what the table has.
    let open_channel = "SELECT pg_notify('cells_of_a_test', 'n1/g1 1 =false')";
    { client(&server, "stranger").await }
        .batch_execute(open_channel)
        .await
        .unwrap();
    let other = client(&server, "n2").await;
    let told_again = "SELECT cells_of_a_test.tell_cells('n1/g1', 1, 9, '')";
    other.batch_execute(told_again).await.unwrap();
    assert!(is_silent(&mut tidings, 1).await);
    sets(&n1, 1, &["one"]).await;
    assert_eq!(told(&mut tidings, 1).await, texts(&["one"]));
    other.batch_execute(told_again).await.unwrap();
    assert_eq!(told(&mut tidings, 1).await, texts(&["one"]));
}

/// Tells this on the channel that anybody may tell on.
async fn tell_all(store: &Schema, tiding: &str) {
    let words = format!("SELECT pg_notify('{}', '{tiding}')", store.name);
    store.server.run(&words).await;
}

#[tokio::test]
async fn without_the_functions_numbers_are_told() {
    let store = Schema::new();
    drop(store.open().await);
    let without = format!(
        "DROP FUNCTION {0}.hear_cells, {0}.tell_cells; DROP TABLE {0}.hearers",
        store.name
    );
    store.server.run(&without).await;
    let (writer, reader) = (store.open().await, store.open().await);
    let mut tidings = reader.follow(&row()).await.unwrap();
    sets(&writer, 1, &["one"]).await;
    assert!(told(&mut tidings, 1).await.is_empty());
    assert_eq!(all(&reader).await, texts(&["one"]));
    assert!(is_silent(&mut tidings, 2).await);
    // What anybody tells wakes who follows the row, once, and is no text.
    for lie in ["", "n1/g1", "n1/g1 x", "n1/g1 2 =one"] {
        tell_all(&store, lie).await;
    }
    assert!(told(&mut tidings, 2).await.is_empty());
    assert!(is_silent(&mut tidings, 2).await);
    tell_all(&store, "n1/g1 18446744073709551615").await;
    assert!(told(&mut tidings, 2).await.is_empty());
    assert!(is_silent(&mut tidings, 2).await);
}
