//! A policy in a Rust program.
use fochillun::{CheckError, Monitor};
use std::error::Error;

const FOUNDING: &str = r#"
version = 1
members = 1
operations = ["read"]
objects = ["ledger"]
permissions = [["read", "ledger"]]
"#;

fn main() -> Result<(), Box<dyn Error>> {
    let mut monitor = Monitor::open(FOUNDING.as_bytes())?;
    for command in [
        r#"{"name":"AddUser","user":"ann"}"#,
        r#"{"name":"AddRole","role":"clerk"}"#,
        r#"{"name":"GrantPermission","operation":"read","object":"ledger","role":"clerk"}"#,
        r#"{"name":"AssignUser","user":"ann","role":"clerk"}"#,
        r#"{"name":"CreateSession","user":"ann","session":"s1","roles":["clerk"]}"#,
    ] {
        println!("{}", monitor.apply(command)?);
    }
    match monitor.check("s1", "read", "ledger") {
        Ok(true) => println!("granted"),
        Ok(false) => println!("refused"),
        Err(CheckError::NoSession) => println!("log in first"),
        Err(other) => return Err(other.into()),
    }
    Ok(())
}
