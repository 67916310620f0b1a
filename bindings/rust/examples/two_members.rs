//! Two members of a group in one program, which bring each other's messages. Each message is set in the member's row before the member
//! takes it; a process keeps its row where it is not lost with it, and is made anew of it by `Member::restore`.
use fochillun::{Member, MemberError};
use std::error::Error;

const FOUNDING: &[u8] =
    b"version = 1\nmembers = 2\noperations = []\nobjects = []\npermissions = []\n";
const ADD_ANN: &str = r#"{"name":"AddUser","user":"ann"}"#;

fn send(member: &mut Member, row: &mut Vec<String>, message: String) -> Result<(), MemberError> {
    row.push(message);
    member.take_own(row.len() as u32, &row[row.len() - 1])?;
    Ok(())
}

fn submit(member: &mut Member, row: &mut Vec<String>, command: &str) -> Result<(), MemberError> {
    let serial = member.next_serial(0) as u32;
    let message = member.next_submit(0, serial, command)?;
    send(member, row, message)
}

/// Brings what stands in the row of `from` and was not received, with the acknowledgement first, and delivers what is due.
fn bring(
    from: u32,
    sent: &[String],
    to: &mut Member,
    row: &mut Vec<String>,
) -> Result<(), MemberError> {
    for (number, message) in (1..).zip(sent).skip(to.read(from) as usize) {
        if let Some(answer) = to.next_answer(from, number, message)? {
            send(to, row, answer)?;
        }
        to.receive(from, number, message)?;
    }
    while to.deliver()?.is_some() {}
    Ok(())
}

fn main() -> Result<(), Box<dyn Error>> {
    let (mut one, mut two) = (Member::open(FOUNDING, 1)?, Member::open(FOUNDING, 2)?);
    let (mut row_of_one, mut row_of_two) = (Vec::new(), Vec::new());
    submit(&mut one, &mut row_of_one, ADD_ANN)?;
    submit(&mut two, &mut row_of_two, ADD_ANN)?;
    bring(1, &row_of_one, &mut two, &mut row_of_two)?;
    // The process of member 2 is lost, and another one is made of its row.
    drop(two);
    let mut two = Member::restore(FOUNDING, 2, &row_of_two)?;
    for _ in 0..2 {
        bring(1, &row_of_one, &mut two, &mut row_of_two)?;
        bring(2, &row_of_two, &mut one, &mut row_of_one)?;
    }
    for number in 1..=2 {
        let record = one.record(number)?;
        assert_eq!(two.record(number)?, record);
        println!("{record}");
    }
    Ok(())
}
