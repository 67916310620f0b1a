//! Proposals of generations while other things befall a group.
use super::Figures;
use crate::group::{founding, Group};
use clap::Parser;
use fochillund::engine::Place;
use fochillund::group::node;
use rand::rngs::StdRng;
use rand::seq::SliceRandom;
use rand::Rng;
use rows::Engine;
use std::process::{Child, Command, Stdio};
use std::sync::Arc;
use std::time::{Duration, Instant};

/// How far proposals lie apart at least.
const APART: Duration = Duration::from_millis(600);

#[derive(Parser)]
struct Words {
    #[command(flatten)]
    place: Place,
}

/// An operator who proposes generations.
pub struct Operator {
    rows: Vec<String>,
    asked: Option<Child>,
    last: Instant,
}

impl Operator {
    pub fn of(rows: Vec<String>) -> Operator {
        Operator {
            rows,
            asked: None,
            last: Instant::now(),
        }
    }

    /// The rows.
    pub async fn engine(&self, group: &Group) -> Arc<dyn Engine> {
        let words = ["rows".to_owned()].into_iter().chain(self.rows.clone());
        let place = Words::parse_from(words).place;
        loop {
            if let Ok(engine) = place.open(group.folder()).await {
                return engine;
            }
            tokio::time::sleep(Duration::from_millis(100)).await;
        }
    }

    /// Proposes one now and then: of some of the nodes, or of another founding file.
    pub fn act(&mut self, group: &Group, random: &mut StdRng, figures: &mut Figures) {
        if let Some(asked) = &mut self.asked {
            match asked.try_wait().unwrap() {
                Some(status) => figures.add("generations proposed", usize::from(status.success())),
                None => return,
            }
            self.asked = None;
        }
        if self.last.elapsed() < APART || !random.gen_ratio(1, 3) {
            return;
        }
        self.last = Instant::now();
        let mut nodes: Vec<String> = (1..=group.members()).map(node).collect();
        nodes.shuffle(random);
        nodes.truncate(random.gen_range(1..=nodes.len()));
        let mut command = Command::new(env!("CARGO_BIN_EXE_fochillund"));
        command.args(["propose", "--patience", "5", "--folder"]);
        command.arg(group.folder()).args(&self.rows);
        command.arg("--nodes").arg(nodes.join(","));
        if random.gen_ratio(1, 3) {
            let file = group.folder().join("other.toml");
            let rota = r#", ["write", "rota"]"#;
            let text = founding(1).replace(rota, if random.gen() { "" } else { rota });
            std::fs::write(&file, text).unwrap();
            command.arg("--founding").arg(file);
        }
        command.stdout(Stdio::null()).stderr(Stdio::null());
        self.asked = Some(command.spawn().unwrap());
    }

    /// Ends what it asked.
    pub fn end(&mut self) {
        if let Some(mut asked) = self.asked.take() {
            let _ = asked.kill();
            asked.wait().unwrap();
        }
    }
}
