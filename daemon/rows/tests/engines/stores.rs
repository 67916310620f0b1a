//! Stores of rows, which tests make and let things befall.
use async_trait::async_trait;
use rand::rngs::StdRng;
use rows::{Engine, Files};
use std::sync::Arc;

/// Rows that a test has made, and that go with it.
#[async_trait]
pub trait Store: Send + Sync {
    /// An engine over these rows, as one more process has it.
    async fn open(&self) -> Arc<dyn Engine>;

    /// By which words another process opens them, with `open_by`.
    fn words(&self) -> String;

    /// Something befalls the rows while processes set cells.
    async fn befall_writers(&mut self, _random: &mut StdRng) {}

    /// Something befalls the rows when no process sets cells.
    async fn befall(&mut self, _random: &mut StdRng) {}
}

/// Opens rows in another process: the kind of the engine, and what it is opened with.
pub async fn open_by(words: &str) -> Arc<dyn Engine> {
    match words.split_once(' ').unwrap() {
        ("etcd", urls) => crate::etcd::open_by(urls).await,
        ("files", folder) => Arc::new(Files::of(folder)),
        ("postgres", words) => Arc::new(crate::postgres::open_by(words).await),
        (other, _) => panic!("{other} is no engine"),
    }
}
