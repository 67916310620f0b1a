//! Batches: several commands of one caller in one message, which are delivered one by one.

mod grouping;
mod playing;

use grouping::{add_user, check, deliver, founding, receive, submit};

const BAD_BATCH: &str = r#"{"refused":"BadBatch"}"#;
const CLOCK_FULL: &str = r#"{"refused":"ClockFull"}"#;
const SENT_FULL: &str = r#"{"refused":"SentFull"}"#;
const NOTHING: &str = r#"{"answer":null}"#;
const TAKEN: &str = r#"{"acknowledged":null}"#;
const FIRST: &str = r#"{"stamp":[1,1]}"#;

fn batch(at: u32, caller: u32, serial: u32, commands: Vec<String>) -> String {
    let commands = commands.join(",");
    format!(r#"{{"do":"batch","at":{at},"caller":{caller},"serial":{serial},"commands":[{commands}]}}"#)
}

fn users(count: usize) -> Vec<String> {
    (0..count).map(|number| add_user(&format!("u{number}"))).collect()
}

/// The records of a batch of member 1 that adds users, from this place on.
fn records(clock: u64, serial: u32, count: u32) -> Vec<String> {
    let stamp = |place| if place == 0 { format!("[{clock},1]") } else { format!("[{clock},1,{place}]") };
    let record =
        |place| format!(r#"{{"answer":"Done","caller":0,"serial":{},"stamp":{}}}"#, serial + place, stamp(place));
    (0..count).map(record).collect()
}

/// Of equal clocks all commands of the smaller member come first, whatever their places.
#[test]
fn a_place_is_compared_after_clock_and_member() {
    let roles = |names: &[&str]| names.iter().map(|name| format!(r#"{{"name":"AddRole","role":"{name}"}}"#)).collect();
    let b = r#"{"name":"AddRole","role":"b"}"#;
    check(
        &founding(2, ""),
        &[
            (batch(1, 0, 0, roles(&["a", "a", "b"])), FIRST),
            (submit(2, 0, 0, b), r#"{"stamp":[1,2]}"#),
            (receive(1, 2, 1), r#"{"acknowledged":[3,1]}"#),
            (deliver(1), r#"{"answer":"Done","caller":0,"serial":0,"stamp":[1,1]}"#),
            (deliver(1), r#"{"answer":{"denied":"RoleExists","number":3},"caller":0,"serial":1,"stamp":[1,1,1]}"#),
            (deliver(1), r#"{"answer":"Done","caller":0,"serial":2,"stamp":[1,1,2]}"#),
            (deliver(1), r#"{"answer":{"denied":"RoleExists","number":3},"caller":0,"serial":0,"stamp":[1,2]}"#),
            (deliver(1), NOTHING),
            (submit(1, 0, 1, b), r#"{"next":3,"refused":"BadSerial"}"#),
            (batch(1, 0, 3, Vec::new()), BAD_BATCH),
            (receive(2, 1, 1), TAKEN),
            (batch(9, 0, 0, Vec::new()), r#"{"refused":"UnknownMember"}"#),
        ],
    );
}

#[test]
fn a_batch_has_1_to_64_commands_and_a_serial_for_each() {
    const LAST: u32 = u32::MAX;
    let next = r#"{"next":0,"refused":"BadSerial"}"#;
    let mut rows = vec![
        (batch(1, 0, 0, users(0)), BAD_BATCH),
        (batch(1, 0, 0, users(65)), BAD_BATCH),
        (batch(1, 0, LAST, users(2)), BAD_BATCH),
        (batch(1, 0, LAST - 62, users(64)), BAD_BATCH),
        (batch(1, 0, LAST - 63, users(64)), next),
        (batch(1, 0, LAST, users(1)), next),
        (batch(1, 0, 1, users(2)), next),
        (batch(1, 0, 0, users(64)), FIRST),
    ];
    let records = records(1, 0, 64);
    rows.extend(records.iter().map(|record| (deliver(1), record.as_str())));
    rows.push((deliver(1), NOTHING));
    check(&founding(1, ""), &rows);
}

/// It comes after UnknownMember, and before the clock, the sent list and the serial.
#[test]
fn a_bad_batch_is_named_first_of_a_members_refusals() {
    let full = founding(1, "clock = 9007199254740991\nsent_limit = 1");
    check(
        &full,
        &[
            (batch(2, 0, 7, users(0)), r#"{"refused":"UnknownMember"}"#),
            (batch(1, 0, 7, users(0)), BAD_BATCH),
            (batch(1, 0, 7, users(65)), BAD_BATCH),
            (batch(1, 0, 7, users(2)), CLOCK_FULL),
        ],
    );
}

/// A batch is one message, and one step of the clock, however many commands it has. Who acknowledges it sends one message for it.
#[test]
fn a_batch_is_one_message() {
    let mut rows = vec![
        (batch(1, 0, 0, users(3)), r#"{"stamp":[9007199254740989,1]}"#),
        (submit(1, 0, 1, &add_user("v")), r#"{"next":3,"refused":"BadSerial"}"#),
        (submit(1, 0, 3, &add_user("v")), r#"{"stamp":[9007199254740990,1]}"#),
        (batch(1, 0, 4, users(2)), SENT_FULL),
        (receive(2, 1, 1), r#"{"acknowledged":[9007199254740991,2]}"#),
    ];
    let records = records(9_007_199_254_740_989, 0, 3);
    rows.extend(records.iter().map(|record| (deliver(2), record.as_str())));
    rows.push((deliver(2), NOTHING));
    rows.push((receive(1, 2, 1), CLOCK_FULL));
    check(&founding(2, "clock = 9007199254740988\nsent_limit = 2"), &rows);
}

/// Two batches of one clock, and a third one of a later one, at a member that took all of them in another order.
#[test]
fn each_member_delivers_them_in_one_order() {
    let mut rows = vec![
        (batch(1, 0, 0, users(2)), FIRST),
        (batch(2, 0, 0, users(3)), r#"{"stamp":[1,2]}"#),
        (receive(3, 2, 1), r#"{"acknowledged":[3,3]}"#),
        (deliver(3), NOTHING),
        (receive(3, 1, 1), TAKEN),
        (batch(3, 0, 0, users(2)), r#"{"stamp":[5,3]}"#),
        (receive(1, 2, 1), r#"{"acknowledged":[3,1]}"#),
        (receive(3, 1, 2), TAKEN),
        (receive(1, 3, 1), TAKEN),
    ];
    let wanted = [
        r#"{"answer":"Done","caller":0,"serial":0,"stamp":[1,1]}"#,
        r#"{"answer":"Done","caller":0,"serial":1,"stamp":[1,1,1]}"#,
        r#"{"answer":{"denied":"UserExists","number":1},"caller":0,"serial":0,"stamp":[1,2]}"#,
        r#"{"answer":{"denied":"UserExists","number":1},"caller":0,"serial":1,"stamp":[1,2,1]}"#,
        r#"{"answer":"Done","caller":0,"serial":2,"stamp":[1,2,2]}"#,
    ];
    for at in [3, 1] {
        rows.extend(wanted.map(|record| (deliver(at), record)));
        rows.push((deliver(at), NOTHING));
    }
    check(&founding(3, ""), &rows);
}

/// The outer object is looked at whole before any command, and each command whole before the next.
#[test]
fn a_line_is_refused_for_what_comes_first() {
    let refused = |word: &str| format!(r#"{{"refused":"{word}"}}"#);
    let commands = |text: &str| format!(r#"{{"do":"batch","at":1,"caller":0,"serial":0,"commands":{text}}}"#);
    let (user, unnamed) = (add_user("ann"), r#"{"user":"ann"}"#);
    let rows: Vec<(String, String)> = [
        (r#"{"do":"batch","caller":0}"#.to_owned(), "MissingField"),
        (r#"{"do":"batch","at":1,"caller":0,"serial":0}"#.to_owned(), "MissingField"),
        (r#"{"do":"batch","at":1,"caller":0,"serial":0,"command":{}}"#.to_owned(), "MissingField"),
        (r#"{"do":"batch","at":1,"caller":0,"serial":-1,"commands":1}"#.to_owned(), "WrongKind"),
        (r#"{"do":"batch","at":1,"caller":0,"serial":0,"commands":[{}],"command":{}}"#.to_owned(), "ExtraField"),
        (r#"{"do":"batch","at":1,"caller":0,"serial":0,"commands":[1],"command":{}}"#.to_owned(), "WrongKind"),
        (r#"{"do":"Batch","at":1,"caller":0,"serial":0,"commands":[]}"#.to_owned(), "UnknownWord"),
        (r#"{"do":"batch","at":1,"caller":0,"serial":4294967296,"commands":[]}"#.to_owned(), "WrongKind"),
        (commands("{}"), "WrongKind"),
        (commands("null"), "WrongKind"),
        (commands(&user), "WrongKind"),
        (commands(&format!("[{user},1]")), "WrongKind"),
        (commands(&format!("[{user},[{user}]]")), "WrongKind"),
        // An element that is no object comes before what is wrong with a command.
        (commands(&format!("[{unnamed},null]")), "WrongKind"),
        (commands(&format!("[{user},{unnamed}]")), "MissingField"),
        (commands(r#"[{"name":"AddUser","user":"a b"},{"name":"AddUsers"}]"#), "BadName"),
        (commands(r#"[{"name":"AddUsers"},{"name":"AddUser","user":"a b"}]"#), "UnknownWord"),
        (commands(r#"[{"name":"AddUser","user":"a","role":"b"},{"user":"a"}]"#), "ExtraField"),
        // What is wrong with a command comes before how many there are.
        (commands(&format!("[{},{unnamed}]", vec![user.as_str(); 65].join(","))), "MissingField"),
    ]
    .map(|(line, word)| (line, refused(word)))
    .to_vec();
    let rows: Vec<(String, &str)> = rows.iter().map(|(line, wanted)| (line.clone(), wanted.as_str())).collect();
    check(&founding(1, ""), &rows);
}
