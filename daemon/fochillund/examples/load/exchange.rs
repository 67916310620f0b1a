//! What an engine alone takes for the hops of one call: the least that any call of a group of two or more takes over it by set, follow and get.
use crate::spread;
use crate::store::Store;
use bytes::Bytes;
use rows::{sure_get, sure_set, Engine, RowName, Tidings, SWEEP};
use std::sync::Arc;
use std::thread;
use std::time::{Duration, Instant};

const EXCHANGES: u64 = 500;

/// One of two that exchange cells: it sets those of a row of its own, and hears of the other's.
struct Side {
    engine: Arc<dyn Engine>,
    own: RowName,
    other: RowName,
    tidings: Box<dyn Tidings>,
}

impl Side {
    async fn of(store: &Store, own: &str, other: &str) -> Side {
        let engine = store.open().await;
        let row = |name| RowName::of_node(name, 1).expect("a name");
        let other = row(other);
        Side {
            tidings: engine.follow(&other).await.expect("tidings"),
            engine,
            own: row(own),
            other,
        }
    }

    async fn set(&self, number: u64) {
        let text = Bytes::from(vec![b'x'; 400]);
        let told = sure_set(
            &*self.engine,
            &self.own,
            number,
            std::slice::from_ref(&text),
        )
        .await;
        told.expect("it is set");
    }

    /// Returns once the other's cell of this number is read: told, or got behind a tiding.
    async fn read(&mut self, number: u64) {
        while self.tidings.wait(number, SWEEP).await.is_empty() {
            let read = sure_get(&*self.engine, &self.other, number).await;
            if !read.expect("it is read").is_empty() {
                return;
            }
        }
    }

    /// Sets a cell, and waits for the other's.
    async fn ask(mut self) -> Vec<Duration> {
        let mut times = Vec::new();
        for number in 1..=EXCHANGES {
            let asked = Instant::now();
            self.set(number).await;
            self.read(number).await;
            times.push(asked.elapsed());
        }
        times
    }

    /// Waits for a cell of the other's, and sets one.
    async fn answer(mut self) {
        for number in 1..=EXCHANGES {
            self.read(number).await;
            self.set(number).await;
        }
    }
}

/// The middle of the times in which one has set a cell, the other, which follows its row, has heard of it, read it and set a cell of its own, and the
/// first has heard of that one and read it, in milliseconds. Each is a thread with a runtime and an engine of its own, as a process has them.
pub fn bare_exchange(store: &Store) -> f64 {
    thread::scope(|scope| {
        let answering = scope.spawn(|| {
            run(async { Side::of(store, "answering", "asking").await.answer().await });
        });
        let asking =
            scope.spawn(|| run(async { Side::of(store, "asking", "answering").await.ask().await }));
        answering.join().expect("it answers");
        spread(asking.join().expect("it asks")).0
    })
}

fn run<T>(side: impl std::future::Future<Output = T>) -> T {
    let runtime = tokio::runtime::Builder::new_current_thread();
    let runtime = { runtime }.enable_all().build();
    runtime.expect("a runtime").block_on(side)
}
