//! Founds a policy by the file that its word names, and answers the commands of standard input, a JSON object a line.
use fochillun::Monitor;
use std::error::Error;

fn main() -> Result<(), Box<dyn Error>> {
    let path = std::env::args()
        .nth(1)
        .ok_or("usage: first_day FOUNDING < COMMANDS")?;
    let mut monitor = Monitor::open(&std::fs::read(path)?)?;
    for command in std::io::stdin().lines() {
        println!("{}", monitor.apply(&command?)?);
    }
    Ok(())
}
