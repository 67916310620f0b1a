//! Prints a difference.

use crate::case::{Case, Played, lines_of};

/// Lines longer than this are printed by their first bytes and their length.
const LONGEST: usize = 400;

const MOST_LINES: usize = 100;

pub fn print_difference(case: &Case, wanted: &Played, got: &Played) {
    println!("words: {:?}", case.words);
    if let Some(founding) = &case.founding {
        println!("founding:\n{}", shown(founding));
    }
    println!("schedule:");
    let lines = case.lines();
    for (place, line) in lines.iter().take(MOST_LINES).enumerate() {
        println!("{:>6}  {}", place + 1, shown(line));
    }
    if lines.len() > MOST_LINES {
        println!("    ..  {} lines in all", lines.len());
    }
    if wanted.status != got.status || wanted.errors != got.errors {
        println!("reference: status {}, {:?}", wanted.status, wanted.errors);
        println!("program:   status {}, {:?}", got.status, got.errors);
    }
    let (wanted, got) = (lines_of(&wanted.output), lines_of(&got.output));
    let place = (0..wanted.len().max(got.len())).find(|place| wanted.get(*place) != got.get(*place));
    if let Some(place) = place {
        let line = |lines: &[&[u8]]| lines.get(place).map_or("nothing".to_owned(), |line| shown(line));
        println!("reference: {}", line(&wanted));
        println!("program:   {}", line(&got));
    }
}

fn shown(text: &[u8]) -> String {
    if text.len() <= LONGEST {
        return text.escape_ascii().to_string().replace("\\n", "\n").replace("\\\"", "\"");
    }
    format!("{} .. ({} bytes)", text[..LONGEST].escape_ascii(), text.len())
}
