//! Plays seeded random schedules by the reference and by the monitor, and compares what they print, byte for byte.
// What compares calls of the library is built with it alone.
#![cfg_attr(not(feature = "library"), allow(dead_code))]

mod calls;
mod case;
mod choose;
mod coverage;
mod dumps;
mod generate;
mod group_run;
mod players;
mod questions;
mod random;
mod report;
mod rows;
mod serving;
mod shrink;
mod text;
mod tree;

use case::{Case, Played};
use coverage::Coverage;
use dumps::{Again, Direct};
use generate::{Choices, Extent, Members};
use players::{Binary, Player, Tried};
use random::Random;
use rows::{Group, Row};
use shrink::Pair;
use std::path::{Path, PathBuf};
use std::process::ExitCode;

const HELP: &str = "\
usage: compare --reference PROGRAM --room FOLDER (--program PROGRAM | --try FOLDER | --library | --library-briefly) [--lines N] [--seed N] [--without-reviews] [--groups] [--serve]
       compare --dumps --reference PROGRAM --room FOLDER (--program PROGRAM | --try FOLDER) [--without-limits] [--lines N] [--seed N]

  --reference PROGRAM  the reference
  --program PROGRAM    the monitor, as built
  --try FOLDER         the folder of the monitor's crate: it is built and run by rt try
  --library            in its place the library, called for each command of schedules of one member, and for each check by both calls
  --library-briefly    the same of a few random schedules, whether or not each answer occurs in them
  --room FOLDER        an empty folder for the schedules
  --lines N            at least so many lines of random schedules (100000; with --try as many as it takes for each answer)
  --seed N             of the random choices (1)
  --without-reviews    no review commands
  --groups             random schedules of groups alone
  --serve              the submits of the schedules as lines of a client of serve
  --dumps              the dumps that the monitor makes of policies of such lines, in their place, and what is asked then
  --without-limits     no dumps at the limits, which take the monitor minutes where it was built without a proof";

/// Random lines for dumps, where a program is built and run by rt try.
const LINES_OF_DUMPS_TRIED: usize = 20_000;

struct Words {
    reference: PathBuf,
    program: Option<PathBuf>,
    tried: Option<PathBuf>,
    room: PathBuf,
    choices: Choices,
    serve: bool,
    dumps: bool,
    limits: bool,
    library: Option<Extent>,
}

fn main() -> ExitCode {
    let Some(words) = read_words() else {
        eprintln!("{HELP}");
        return ExitCode::from(2);
    };
    let compared = match words.library {
        Some(extent) => compare_calls(&words, extent),
        None if words.serve => compare_serving(&words),
        None if words.dumps => compare_dumps(&words),
        None => compare(&words),
    };
    match compared {
        Ok(true) => ExitCode::SUCCESS,
        Ok(false) => ExitCode::FAILURE,
        Err(message) => {
            eprintln!("compare: {message}");
            ExitCode::from(2)
        }
    }
}

fn read_words() -> Option<Words> {
    let (mut reference, mut program, mut tried, mut room) = (None, None, None, None);
    let members = Members::OneAndGroups;
    let mut choices = Choices { seed: 1, lines: 100_000, reviews: true, extent: Extent::Whole, members };
    let (mut lines, mut serve, mut library) = (None, false, None);
    let (mut dumps, mut limits) = (false, true);
    let mut words = std::env::args().skip(1);
    while let Some(word) = words.next() {
        match word.as_str() {
            "--reference" => reference = Some(words.next()?.into()),
            "--program" => program = Some(words.next()?.into()),
            "--try" => tried = Some(words.next()?.into()),
            "--library" => library = Some(Extent::Whole),
            "--library-briefly" => library = Some(Extent::Short),
            "--room" => room = Some(words.next()?.into()),
            "--lines" => lines = Some(words.next()?.parse().ok()?),
            "--seed" => choices.seed = words.next()?.parse().ok()?,
            "--without-reviews" => choices.reviews = false,
            "--groups" => choices.members = Members::Groups,
            "--serve" => serve = true,
            "--dumps" => dumps = true,
            "--without-limits" => limits = false,
            _ => return None,
        }
    }
    if [program.is_some(), tried.is_some(), library.is_some()].into_iter().filter(|given| *given).count() != 1 {
        return None;
    }
    if dumps && (serve || library.is_some()) {
        return None;
    }
    if library.is_some() {
        choices.members = Members::One;
    }
    if tried.is_some() {
        (choices.extent, choices.lines) = (Extent::Short, 0);
    }
    let usual = if dumps && choices.lines == 0 { LINES_OF_DUMPS_TRIED } else { choices.lines };
    choices.lines = lines.unwrap_or(usual);
    Some(Words { reference: reference?, program, tried, room: room?, choices, serve, dumps, limits, library })
}

/// Whether the programs never differed and all that can occur did.
fn compare(words: &Words) -> Result<bool, String> {
    let reference = binary(&words.reference, &words.room.join("reference"))?;
    let program = monitor(words, "program")?;
    let choices = &words.choices;
    println!("seed {}", choices.seed);
    let pair = Pair { reference: &reference, program: program.as_ref() };
    let mut coverage = Coverage::default();
    let mut cases = generate::fixed_cases(choices);
    cases.extend(choose::chosen_cases(&reference, choices, &cases)?);
    for some in cases.chunks(program.cases_at_once()) {
        let Some(played) = play_alike(&pair, some)? else {
            return Ok(false);
        };
        for (case, (wanted, _)) in some.iter().zip(&played) {
            coverage.count(case, wanted);
        }
        if !coverage.broken_laws.is_empty() {
            println!("the outputs are the same, and a law of the order is broken:");
            coverage.broken_laws.iter().for_each(|law| println!("  {law}"));
            return Ok(false);
        }
    }
    println!("{} schedules, {} lines: the outputs are the same", cases.len(), coverage.lines);
    coverage.print();
    Ok(is_complete(&coverage, choices))
}

/// The same of client lines: what one client is answered, line by line.
fn compare_serving(words: &Words) -> Result<bool, String> {
    let reference = binary(&words.reference, &words.room.join("reference"))?;
    let program = monitor(words, "program")?;
    let pair = Pair { reference: &reference, program: program.as_ref() };
    let mut cases = generate::fixed_cases(&words.choices);
    cases.extend(choose::chosen_cases(&reference, &words.choices, &cases)?);
    let cases = serving::cases_of(&cases);
    let mut told = serving::Told::default();
    for some in cases.chunks(program.cases_at_once()) {
        let Some(played) = play_alike(&pair, some)? else {
            return Ok(false);
        };
        played.iter().for_each(|(wanted, _)| told.count(wanted));
    }
    println!(
        "seed {}: {} conversations, {} lines: the outputs are the same",
        words.choices.seed,
        cases.len(),
        told.lines
    );
    told.print();
    let missing = told.missing();
    if !missing.is_empty() {
        println!("can occur and did not: {}", missing.join(", "));
    }
    Ok(missing.is_empty())
}

/// The same of dumps: what is asked of a policy that was made again is answered as it is of the policy itself.
fn compare_dumps(words: &Words) -> Result<bool, String> {
    let reference = binary(&words.reference, &words.room.join("reference"))?;
    let (program, asked) = (monitor(words, "program")?, monitor(words, "asked")?);
    let direct = Direct { reference: &reference };
    let again = Again::new(asked.as_ref(), &reference, program.as_ref());
    let pair = Pair { reference: &direct, program: &again };
    println!("seed {}", words.choices.seed);
    let (mut random, mut coverage) = (Random::new(words.choices.seed), Coverage::default());
    for some in generate::policy_cases(&words.choices, words.limits).chunks(again.cases_at_once()) {
        let cases = questions::cases_of(&direct, some, &mut random)?;
        let Some(played) = play_alike(&pair, &cases)? else {
            return Ok(false);
        };
        let answered = cases.iter().map(dumps::behind_the_mark).zip(&played);
        answered.for_each(|(case, (wanted, _))| coverage.count_told(&case, wanted));
    }
    let counted = again.counted.borrow();
    let reviews = coverage.answered(|row| row.group == Group::Review);
    let checks = coverage.answered(Row::is_check);
    println!(
        "{} policies, {} lines of dumps: each is answered Done; {reviews} reviews, {checks} checks and {} other lines behind them: the answers are the same",
        counted.dumps,
        counted.lines,
        coverage.lines - reviews - checks
    );
    println!("  in dumps: {}", counted.text());
    coverage.print();
    let missing: Vec<String> = counted.missing().into_iter().chain(coverage.missing_of_questions()).collect();
    Ok(tell_missing(&missing, &[]))
}

/// The same of the calls of a program: what each command is answered, and each check by the call for checks.
#[cfg(feature = "library")]
fn compare_calls(words: &Words, extent: Extent) -> Result<bool, String> {
    let reference = binary(&words.reference, &words.room.join("reference"))?;
    let library = players::Library::default();
    let pair = Pair { reference: &reference, program: &library };
    let choices = &words.choices;
    let cases = match extent {
        Extent::Whole => {
            let mut cases = generate::fixed_cases(choices);
            cases.extend(choose::chosen_cases(&reference, choices, &cases)?);
            cases
        }
        Extent::Short => generate::random_cases(choices, false, choices.lines),
    };
    let cases = calls::cases_of(&cases);
    let mut coverage = Coverage::default();
    for some in cases.chunks(library.cases_at_once()) {
        let Some(played) = play_alike(&pair, some)? else {
            return Ok(false);
        };
        some.iter().zip(&played).for_each(|(case, (wanted, _))| coverage.count_told(case, wanted));
    }
    println!(
        "seed {}: {} foundings, {} commands, {} checks by both calls: the answers are the same",
        choices.seed,
        cases.len(),
        library.commands.get(),
        library.checks.get()
    );
    if extent == Extent::Short {
        return Ok(true);
    }
    coverage.print();
    Ok(tell_missing(&coverage.missing_of_calls(choices), &coverage.unknown()))
}

#[cfg(not(feature = "library"))]
fn compare_calls(_: &Words, _: Extent) -> Result<bool, String> {
    Err("built without the library".to_owned())
}

fn monitor(words: &Words, room: &str) -> Result<Box<dyn Player>, String> {
    match (&words.program, &words.tried) {
        (Some(program), _) => Ok(Box::new(binary(program, &words.room.join(room))?)),
        (None, Some(folder)) => {
            let room = absolute(&words.room)?.join(room);
            Ok(Box::new(Tried { crate_folder: folder.clone(), room }))
        }
        (None, None) => Err("no program".to_owned()),
    }
}

/// What both printed for these cases, or None where it differs, which is then shown.
fn play_alike(pair: &Pair, some: &[Case]) -> Result<Option<Vec<(Played, Played)>>, String> {
    let played = pair.play(some)?;
    let differing = (0..some.len()).filter(|number| played[*number].0 != played[*number].1);
    let differing: Vec<usize> = differing.collect();
    if let Some(first) = differing.first() {
        let names: Vec<&str> = differing.iter().map(|number| some[*number].name.as_str()).collect();
        println!("{} schedules differ: {}", names.len(), names.join(" "));
        show_shortened(pair, some[*first].clone())?;
        return Ok(None);
    }
    Ok(Some(played))
}

fn show_shortened(pair: &Pair, case: Case) -> Result<(), String> {
    let case = shrink::shrink(pair, case)?;
    let played = pair.play(std::slice::from_ref(&case))?;
    for (wanted, got) in &played {
        report::print_difference(&case, wanted, got);
    }
    Ok(())
}

fn is_complete(coverage: &Coverage, choices: &Choices) -> bool {
    tell_missing(&coverage.missing(choices), &coverage.unknown())
}

/// Whether nothing is missing and nothing is unknown.
fn tell_missing(missing: &[String], unknown: &[String]) -> bool {
    for (heading, words) in [("can occur and did not", missing), ("cannot occur and did", unknown)] {
        if !words.is_empty() {
            println!("{heading}: {}", words.join(", "));
        }
    }
    missing.is_empty() && unknown.is_empty()
}

fn binary(program: &Path, room: &Path) -> Result<Binary, String> {
    std::fs::create_dir_all(room).map_err(|error| format!("{}: {error}", room.display()))?;
    Ok(Binary { program: absolute(program)?, room: room.to_owned() })
}

fn absolute(path: &Path) -> Result<PathBuf, String> {
    path.canonicalize().map_err(|error| format!("{}: {error}", path.display()))
}
