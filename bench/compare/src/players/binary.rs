//! A program that is there as a file.

use super::Player;
use crate::case::{Case, Played, SCHEDULE_PATH};
use std::fs::{self, File};
use std::path::{Path, PathBuf};
use std::process::Command;
use std::time::Duration;

pub struct Binary {
    pub program: PathBuf,
    /// A folder of its own, in which it runs.
    pub room: PathBuf,
}

impl Player for Binary {
    fn play(&self, cases: &[Case]) -> Result<Vec<Played>, String> {
        cases.iter().map(|case| self.play_one(case)).collect()
    }

    fn cases_at_once(&self) -> usize {
        16
    }

    fn shrink_effort(&self) -> (usize, Duration) {
        (16, Duration::from_secs(60))
    }
}

impl Binary {
    fn play_one(&self, case: &Case) -> Result<Played, String> {
        let schedule = self.room.join(&case.name);
        write(&schedule, &case.schedule)?;
        let founding = self.room.join(case.founding_name());
        if let Some(bytes) = &case.founding {
            write(&founding, bytes)?;
        }
        let words = case.words.iter().map(|word| if word == SCHEDULE_PATH { &case.name } else { word });
        let input = File::open(&schedule).map_err(|error| format!("{}: {error}", schedule.display()))?;
        let ended = Command::new(&self.program).args(words).current_dir(&self.room).stdin(input).output();
        let ended = ended.map_err(|error| format!("{}: {error}", self.program.display()))?;
        let status = ended.status.code().ok_or_else(|| format!("{}: {}", case.name, ended.status))?;
        remove(&schedule)?;
        if case.founding.is_some() {
            remove(&founding)?;
        }
        Ok(Played::new(status, ended.stdout, String::from_utf8_lossy(&ended.stderr).into_owned()))
    }
}

fn write(path: &Path, bytes: &[u8]) -> Result<(), String> {
    fs::write(path, bytes).map_err(|error| format!("{}: {error}", path.display()))
}

fn remove(path: &Path) -> Result<(), String> {
    fs::remove_file(path).map_err(|error| format!("{}: {error}", path.display()))
}
