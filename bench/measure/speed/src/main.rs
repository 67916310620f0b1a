//! Times the monitor and the reference over the same inputs, turn by turn, and prints the medians as a Markdown table.

mod measure;
mod schedule;
mod work;

use std::fs;
use std::path::{Path, PathBuf};
use std::process::ExitCode;
use std::time::Duration;
use work::{Sizes, Work};

const HELP: &str = "\
usage: speed --program PROGRAM --reference PROGRAM --room FOLDER [--turns N] [--small] [--without-reviews]

  --turns N           how often each program runs over each input (7)
  --small             small inputs, to see that it works
  --without-reviews   no review commands";

struct Words {
    program: PathBuf,
    reference: PathBuf,
    room: PathBuf,
    turns: usize,
    sizes: Sizes,
    reviews: bool,
}

fn main() -> ExitCode {
    let Some(words) = read_words() else {
        eprintln!("{HELP}");
        return ExitCode::from(2);
    };
    match print_table(&words) {
        Ok(()) => ExitCode::SUCCESS,
        Err(message) => {
            eprintln!("speed: {message}");
            ExitCode::FAILURE
        }
    }
}

fn read_words() -> Option<Words> {
    let (mut program, mut reference, mut room) = (None, None, None);
    let (mut turns, mut sizes, mut reviews) = (7, Sizes::FULL, true);
    let mut words = std::env::args().skip(1);
    while let Some(word) = words.next() {
        match word.as_str() {
            "--program" => program = Some(words.next()?.into()),
            "--reference" => reference = Some(words.next()?.into()),
            "--room" => room = Some(words.next()?.into()),
            "--turns" => turns = words.next()?.parse().ok().filter(|turns| *turns > 0)?,
            "--small" => sizes = Sizes::SMALL,
            "--without-reviews" => reviews = false,
            _ => return None,
        }
    }
    Some(Words { program: program?, reference: reference?, room: room?, turns, sizes, reviews })
}

fn print_table(words: &Words) -> Result<(), String> {
    println!(
        "| Work | Lines | Monitor | Lines a second | Reference | Lines a second | Ratio | Peak memory | of the reference |"
    );
    println!("|---|---|---|---|---|---|---|---|---|");
    for work in work::all(&words.sizes, words.reviews) {
        println!("{}", row(words, &work)?);
    }
    Ok(())
}

/// One row: both medians, how many times longer the monitor takes, and both peaks.
fn row(words: &Words, work: &Work) -> Result<String, String> {
    let input = words.room.join("input");
    write(&input, &work.schedule.text)?;
    let founding = match &work.founding {
        None => "-".to_owned(),
        Some(text) => {
            let path = words.room.join("founding.toml");
            write(&path, text)?;
            path.display().to_string()
        }
    };
    let outputs = ["monitor", "reference"].map(|name| words.room.join(name));
    let mut times = [Vec::new(), Vec::new()];
    for _ in 0..words.turns {
        for (place, program) in [&words.program, &words.reference].into_iter().enumerate() {
            times[place].push(measure::time(program, &founding, &input, &outputs[place])?);
        }
        require_same(work, &outputs)?;
    }
    let [monitor, reference] = times.map(measure::median);
    let lines = work.schedule.lines;
    let peak = |program: &Path| measure::peak_memory(program, &founding, &input, lines);
    Ok(format!(
        "| {} | {lines} | {} | {} | {} | {} | {:.2} | {} KiB | {} KiB |",
        work.name,
        milliseconds(monitor),
        a_second(lines, monitor),
        milliseconds(reference),
        a_second(lines, reference),
        monitor.as_secs_f64() / reference.as_secs_f64(),
        peak(&words.program)?,
        peak(&words.reference)?,
    ))
}

fn require_same(work: &Work, outputs: &[PathBuf; 2]) -> Result<(), String> {
    let read = |path: &PathBuf| fs::read(path).map_err(|error| format!("{}: {error}", path.display()));
    let (monitor, reference) = (read(&outputs[0])?, read(&outputs[1])?);
    let count = reference.iter().filter(|byte| **byte == b'\n').count();
    if monitor != reference {
        return Err(format!("{}: the outputs differ", work.name));
    }
    if count != work.schedule.lines {
        return Err(format!("{}: {count} answers to {} lines", work.name, work.schedule.lines));
    }
    Ok(())
}

fn write(path: &Path, text: &str) -> Result<(), String> {
    fs::write(path, text).map_err(|error| format!("{}: {error}", path.display()))
}

fn milliseconds(time: Duration) -> String {
    format!("{:.1} ms", time.as_secs_f64() * 1e3)
}

fn a_second(lines: usize, time: Duration) -> String {
    format!("{:.0}", lines as f64 / time.as_secs_f64())
}
