//! Measures rows on a PostgreSQL server: postgres_speed SERVER SCHEMA, a connection's words and a schema that it may fill.
use bytes::Bytes;
use rows::postgres::Options;
use rows::{Engine, Postgres, RowName, Told};
use std::sync::Arc;
use std::time::{Duration, Instant};

async fn open(server: &str, schema: &str) -> Arc<Postgres> {
    let schema = schema.to_owned();
    let options = Options {
        schema,
        ..Options::of(server)
    };
    Arc::new(Postgres::open(options).await.expect("the server"))
}

fn row(number: u64) -> RowName {
    RowName::of_node("speed", number).expect("a name")
}

fn middle(mut times: Vec<Duration>) -> (Duration, Duration) {
    times.sort();
    (times[times.len() / 2], times[times.len() * 99 / 100])
}

async fn set(engine: &Postgres, row: &RowName, number: u64) {
    let text = Bytes::from(vec![b'a'; 280]);
    assert_eq!(engine.set(row, number, &[text]).await, Ok(Told::Set));
}

#[tokio::main]
async fn main() {
    let words: Vec<String> = std::env::args().collect();
    let (server, schema) = (&words[1], &words[2]);
    let now = std::process::id() as u64 * 100;
    let engine = open(server, schema).await;
    let mut times = Vec::new();
    for number in 1..=1000 {
        let began = Instant::now();
        set(&engine, &row(now), number).await;
        times.push(began.elapsed());
    }
    println!("a set: p50, p99 {:?}", middle(times));
    let mut writers = Vec::new();
    let began = Instant::now();
    for writer in 1..=6 {
        let engine = open(server, schema).await;
        writers.push(tokio::spawn(async move {
            for number in 1..=500 {
                set(&engine, &row(now + writer), number).await;
            }
        }));
    }
    for writer in writers {
        writer.await.expect("no panic");
    }
    let rate = 3000.0 / began.elapsed().as_secs_f64();
    println!("six writers of six rows: {rate:.0} sets a second");
    let (reader, row) = (open(server, schema).await, row(now + 7));
    let mut tidings = reader.follow(&row).await.expect("tidings");
    let (mut told, mut read) = (Vec::new(), Vec::new());
    for number in 1..=300 {
        set(&engine, &row, number).await;
        let began = Instant::now();
        tidings.wait(number, Duration::from_secs(5)).await;
        told.push(began.elapsed());
        assert_eq!(reader.get(&row, number).await.expect("a read").len(), 1);
        read.push(began.elapsed());
    }
    println!(
        "a tiding behind its set: p50, p99 {:?}; read {:?}",
        middle(told),
        middle(read)
    );
    let began = Instant::now();
    for _ in 0..300 {
        reader.get(&row, 300).await.expect("a read");
    }
    println!("a read of one cell: {:?}", began.elapsed() / 300);
}
