//! Rows that are opened in a cluster of etcd.
use crate::stores::Store;
use async_trait::async_trait;
use rand::rngs::StdRng;
use rand::Rng;
use rows::etcd::{Options, Uri};
use rows::{Engine, Etcd, Fault};
use servers::etcd::PATIENCE;
pub use servers::etcd::{free_port, words_of, Cluster, Setup};
use std::sync::Arc;
use std::time::{Duration, Instant};

pub const PREFIX: &str = "/groups/ward";

/// What has rows.
pub trait HasRows {
    /// By what they are opened.
    fn options(&self) -> Options;
}

impl HasRows for Cluster {
    fn options(&self) -> Options {
        options_of(&self.urls())
    }
}

/// A reply is waited for longer than by itself: this machine may do much else.
fn options_of(urls: &str) -> Options {
    let urls = urls.split(',').map(|url| url.parse::<Uri>().unwrap());
    Options {
        reply: Duration::from_secs(30),
        ..Options::of(urls.collect(), PREFIX)
    }
}

/// Opens rows of etcd in another process.
pub async fn open_by(urls: &str) -> Arc<dyn Engine> {
    Arc::new(open(options_of(urls)).await)
}

/// Opens rows, also where etcd is just being started.
pub async fn open(options: Options) -> Etcd {
    let began = Instant::now();
    loop {
        match Etcd::open(options.clone()).await {
            Err(Fault::Silent(_)) if began.elapsed() < PATIENCE => {}
            opened => return opened.unwrap(),
        }
        tokio::time::sleep(Duration::from_millis(20)).await;
    }
}

#[async_trait]
impl Store for Cluster {
    async fn open(&self) -> Arc<dyn Engine> {
        Arc::new(open(self.options()).await)
    }

    fn words(&self) -> String {
        format!("etcd {}", self.urls())
    }

    /// A member is killed, and started again.
    async fn befall_writers(&mut self, random: &mut StdRng) {
        let place = random.gen_range(0..self.members());
        self.kill_member(place);
        tokio::time::sleep(Duration::from_millis(random.gen_range(0..100))).await;
        self.start_member(place);
    }

    /// All are killed, and started again.
    async fn befall(&mut self, _random: &mut StdRng) {
        self.kill_all();
        self.start_all();
        self.answers().await;
    }
}
