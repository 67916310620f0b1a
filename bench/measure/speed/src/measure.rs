//! Runs a program over an input, and takes its time and its memory.

use std::fs::{self, File};
use std::io::{BufRead, BufReader, Write};
use std::path::Path;
use std::process::{Command, Stdio};
use std::time::{Duration, Instant};

/// From a file to a file: the seconds from the start of the program to its end.
pub fn time(program: &Path, founding: &str, input: &Path, output: &Path) -> Result<Duration, String> {
    let failed = |error: std::io::Error| format!("{}: {error}", program.display());
    let (reader, writer) = (File::open(input).map_err(failed)?, File::create(output).map_err(failed)?);
    let mut command = Command::new(program);
    command.args(["play", founding, "-"]).stdin(reader).stdout(writer);
    let begun = Instant::now();
    let status = command.status().map_err(failed)?;
    let took = begun.elapsed();
    if status.success() { Ok(took) } else { Err(format!("{}: {status}", program.display())) }
}

/// The most memory, in KiB, that the program has had when it has answered all lines and waits for more.
pub fn peak_memory(program: &Path, founding: &str, input: &Path, lines: usize) -> Result<u64, String> {
    let failed = |error: std::io::Error| format!("{}: {error}", program.display());
    let text = fs::read(input).map_err(failed)?;
    let mut command = Command::new(program);
    command.args(["play", founding, "-"]).stdin(Stdio::piped()).stdout(Stdio::piped());
    let mut process = command.spawn().map_err(failed)?;
    let (Some(mut writer), Some(reader)) = (process.stdin.take(), process.stdout.take()) else {
        return Err("no pipes".to_owned());
    };
    let writing = std::thread::spawn(move || writer.write_all(&text).map(|()| writer));
    let mut reader = BufReader::new(reader);
    let mut answer = Vec::new();
    for _ in 0..lines {
        answer.clear();
        if reader.read_until(b'\n', &mut answer).map_err(failed)? == 0 {
            return Err(format!("{}: answers are missing", program.display()));
        }
    }
    let status = fs::read_to_string(format!("/proc/{}/status", process.id())).map_err(failed)?;
    drop(writing.join());
    process.wait().map_err(failed)?;
    let peak = status.lines().find_map(|line| line.strip_prefix("VmHWM:"));
    let kibibytes = peak.and_then(|peak| peak.trim().strip_suffix(" kB")).and_then(|peak| peak.parse().ok());
    kibibytes.ok_or_else(|| "no peak in /proc".to_owned())
}

pub fn median(mut times: Vec<Duration>) -> Duration {
    times.sort();
    times[times.len() / 2]
}
