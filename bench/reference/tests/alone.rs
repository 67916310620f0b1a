//! One member by itself: what it sends, takes and tells, and what it refuses first.

mod playing;

use playing::printed;

const ANN: &str = r#"{"name":"AddUser","user":"ann"}"#;
const BOB: &str = r#"{"name":"AddUser","user":"bob"}"#;

fn founding(members: u32, more: &str) -> String {
    format!("version = 1\nmembers = {members}\n{more}\noperations = []\nobjects = []\npermissions = []\n")
}

/// Gives member 1 the lines, and compares each answer, which is wanted without the number of its line.
fn check(founding: &str, rows: &[(&str, &str)]) {
    check_by("member", founding, rows);
}

fn check_by(word: &str, founding: &str, rows: &[(&str, &str)]) {
    let lines = rows.iter().map(|(line, _)| format!("{line}\n")).collect();
    let printed = printed(word, founding, "1", lines);
    let answers: Vec<&str> = printed.lines().collect();
    assert_eq!(answers.len(), rows.len());
    for (place, ((line, wanted), answer)) in rows.iter().zip(answers).enumerate() {
        let number = format!("\"line\":{}", place + 1);
        let answer = answer.replace(&format!(",{number}"), "").replace(&format!("{number},"), "");
        assert_eq!(&answer, wanted, "{number}: {line}");
    }
}

fn batch(serial: u32, stamp: &str, commands: &str) -> String {
    format!(r#"{{"caller":0,"commands":[{commands}],"serial":{serial},"stamp":{stamp}}}"#)
}

fn own(number: u32, message: &str) -> String {
    format!(r#"{{"do":"own","number":{number},"message":{message}}}"#)
}

fn receive(from: u32, number: u32, message: &str) -> String {
    format!(r#"{{"do":"receive","from":{from},"number":{number},"message":{message}}}"#)
}

fn answer(from: u32, number: u32, message: &str) -> String {
    receive(from, number, message).replace("receive", "answer")
}

fn next(serial: u32, commands: &str) -> String {
    format!(r#"{{"do":"next","caller":0,"serial":{serial},"commands":[{commands}]}}"#)
}

const NOT_RISING: &str = r#"{"refused":"StampNotRising"}"#;
const BAD_BATCH: &str = r#"{"refused":"BadBatch"}"#;
const CLOCK_FULL: &str = r#"{"refused":"ClockFull"}"#;
const SENT_FULL: &str = r#"{"refused":"SentFull"}"#;
const WRONG_KIND: &str = r#"{"refused":"WrongKind"}"#;
const EXTRA_FIELD: &str = r#"{"refused":"ExtraField"}"#;
const MISSING_FIELD: &str = r#"{"refused":"MissingField"}"#;
const UNKNOWN: &str = r#"{"refused":"UnknownMember"}"#;

#[test]
fn what_is_sent_at_once_is_told_and_delivered() {
    let submit = format!(r#"{{"do":"submit","caller":0,"serial":0,"command":{ANN}}}"#);
    let sent = format!(r#"{{"message":{}}}"#, batch(0, "[1,1]", ANN));
    let record = format!(r#"{{"answer":"Done","caller":0,"command":{ANN},"serial":0,"stamp":[1,1]}}"#);
    check(
        &founding(3, ""),
        &[
            (&submit, r#"{"number":1}"#),
            (r#"{"do":"message","number":1}"#, &sent),
            (r#"{"do":"waits"}"#, r#"{"stamp":[1,1],"waits":6}"#),
            (r#"{"do":"deliver"}"#, r#"{"record":null}"#),
            (&receive(3, 1, r#"{"stamp":[3,3]}"#), r#"{"acknowledged":null}"#),
            (r#"{"do":"waits"}"#, r#"{"stamp":[1,1],"waits":2}"#),
            (&receive(2, 1, &batch(0, "[2,2]", BOB)), r#"{"acknowledged":2}"#),
            (r#"{"do":"message","number":2}"#, r#"{"message":{"stamp":[6,1]}}"#),
            (r#"{"do":"deliver"}"#, &format!(r#"{{"number":1,"record":{record}}}"#)),
            (r#"{"do":"record","number":1}"#, &format!(r#"{{"record":{record}}}"#)),
            (r#"{"do":"waits"}"#, r#"{"stamp":[2,2],"waits":0}"#),
            (r#"{"do":"dump"}"#, &format!(r#"{{"commands":[{ANN}]}}"#)),
            (r#"{"do":"record","number":2}"#, r#"{"refused":"NotSent"}"#),
            (r#"{"do":"message","number":0}"#, r#"{"refused":"NotSent"}"#),
        ],
    );
}

#[test]
fn what_is_asked_first_is_taken_from_its_row() {
    let brought = batch(0, "[7,2]", BOB);
    check(
        &founding(2, ""),
        &[
            (&next(0, ANN), &format!(r#"{{"message":{}}}"#, batch(0, "[1,1]", ANN))),
            (&next(0, BOB), &format!(r#"{{"message":{}}}"#, batch(0, "[1,1]", BOB))),
            (&own(1, &batch(0, "[1,1]", ANN)), r#"{"number":1}"#),
            (&answer(2, 1, &brought), r#"{"message":{"stamp":[8,1]}}"#),
            (r#"{"do":"message","number":2}"#, r#"{"refused":"NotSent"}"#),
            (&own(2, r#"{"stamp":[8,1]}"#), r#"{"number":2}"#),
            (&answer(2, 1, &brought), r#"{"message":null}"#),
            (&receive(2, 1, &brought), r#"{"acknowledged":null}"#),
            (&next(1, ANN), &format!(r#"{{"message":{}}}"#, batch(1, "[10,1]", ANN))),
            // A seal may be far above, and what was set before it need not be the clock's next stamp.
            (&own(3, r#"{"stamp":[9,1]}"#), r#"{"number":3}"#),
            (&own(4, r#"{"stamp":[90,1]}"#), r#"{"number":4}"#),
            (&next(1, ANN), &format!(r#"{{"message":{}}}"#, batch(1, "[91,1]", ANN))),
        ],
    );
}

#[test]
fn a_refusal_names_what_comes_first() {
    let empty = batch(4, "[9,3]", "");
    let far = format!("[{},2]", u64::MAX);
    check(
        &founding(2, "sent_limit = 1"),
        &[
            (&receive(3, 5, &empty), UNKNOWN),
            (&receive(0, 5, &empty), UNKNOWN),
            (&receive(1, 5, &empty), r#"{"refused":"FromSelf"}"#),
            (&receive(2, 0, &empty), r#"{"expected":1,"refused":"Repeat"}"#),
            (&receive(2, 2, &empty), r#"{"expected":1,"refused":"Gap"}"#),
            (&receive(2, 1, &empty), NOT_RISING),
            (&receive(2, 1, &batch(4, &far, "")), BAD_BATCH),
            (&receive(2, 1, &batch(4, &far, ANN)), CLOCK_FULL),
            (&receive(2, 1, &batch(4, "[9,2]", ANN)), r#"{"next":0,"refused":"BadSerial"}"#),
            (&own(2, &empty), r#"{"expected":1,"refused":"Gap"}"#),
            (&own(1, &empty), NOT_RISING),
            (&own(1, &batch(4, "[9007199254740992,1]", "")), BAD_BATCH),
            (&own(1, &batch(4, "[9007199254740992,1]", ANN)), CLOCK_FULL),
            (&own(1, &batch(4, "[0,1]", ANN)), r#"{"next":0,"refused":"BadSerial"}"#),
            (&own(1, r#"{"stamp":[5,1]}"#), r#"{"number":1}"#),
            (&own(1, r#"{"stamp":[6,1]}"#), r#"{"expected":2,"refused":"Repeat"}"#),
            (&own(2, r#"{"stamp":[5,1]}"#), NOT_RISING),
            (&own(2, &batch(4, "[6,1]", ANN)), SENT_FULL),
            (&next(4, ANN), SENT_FULL),
            (&next(4, ""), BAD_BATCH),
            (&answer(2, 1, &batch(4, "[9,2]", ANN)), SENT_FULL),
            (&receive(2, 1, &batch(4, "[4,2]", ANN)), r#"{"next":0,"refused":"BadSerial"}"#),
            (&receive(2, 1, &batch(0, "[4,2]", ANN)), r#"{"acknowledged":null}"#),
            (&receive(2, 2, &batch(1, "[4,2]", ANN)), NOT_RISING),
        ],
    );
}

#[test]
fn a_line_is_looked_at_from_the_outside() {
    check(
        &founding(2, ""),
        &[
            (r#"{"do":"fly","number":1}"#, r#"{"refused":"UnknownWord"}"#),
            (r#"{"do":"waits","at":1}"#, EXTRA_FIELD),
            (r#"{"do":"receive","number":1,"message":{}}"#, MISSING_FIELD),
            (r#"{"do":"own","number":1,"message":[]}"#, WRONG_KIND),
            (r#"{"do":"own","number":1,"message":{},"x":1}"#, EXTRA_FIELD),
            (&own(1, "{}"), MISSING_FIELD),
            (&own(1, r#"{"stamp":[1,1,0]}"#), WRONG_KIND),
            (&own(1, r#"{"stamp":[1]}"#), WRONG_KIND),
            (&own(1, r#"{"stamp":[18446744073709551616,1]}"#), WRONG_KIND),
            (&own(1, r#"{"stamp":[1,4294967296]}"#), WRONG_KIND),
            (&own(1, r#"{"stamp":[1,1],"serial":0}"#), EXTRA_FIELD),
            (&own(1, r#"{"stamp":[1,1],"commands":null}"#), MISSING_FIELD),
            (&own(1, r#"{"stamp":[1,1],"caller":0,"commands":null}"#), WRONG_KIND),
            (&own(1, r#"{"stamp":[1,1],"caller":0,"commands":[{}]}"#), MISSING_FIELD),
            (&own(1, r#"{"stamp":1,"caller":0,"commands":[{}],"serial":0}"#), WRONG_KIND),
            (&own(1, r#"{"stamp":[1,1],"caller":0,"commands":[{"name":"Fly"}],"serial":0,"x":0}"#), EXTRA_FIELD),
            (
                &own(1, r#"{"stamp":[1,1],"caller":0,"commands":[{"name":"Fly"}],"serial":0}"#),
                r#"{"refused":"UnknownWord"}"#,
            ),
        ],
    );
}

/// A set of roles is told sorted, each role once.
#[test]
fn a_message_is_told_as_it_is_kept() {
    let set = |roles: &str| format!(r#"{{"name":"CreateSession","user":"u","session":"s","roles":[{roles}]}}"#);
    let (given, told) = (set(r#""b","a","b","B""#), set(r#""B","a","b""#));
    check(&founding(1, ""), &[(&next(0, &given), &format!(r#"{{"message":{}}}"#, batch(0, "[1,1]", &told)))]);
}

/// A text that has 65,485 bytes is carried, and one that has more is not.
#[test]
fn a_message_is_short_enough_to_be_carried() {
    let too_long = r#"{"refused":"MessageTooLong"}"#;
    let named = |more: usize| {
        let role = |number| format!(r#""{}{number:04}""#, "r".repeat(60));
        let roles: Vec<String> = (0..975).map(role).collect();
        let session = format!(r#"{{"name":"CreateSession","user":"u","session":"{}","#, "s".repeat(more));
        format!(r#"{session}"roles":[{}]}}"#, roles.join(","))
    };
    let length = batch(0, "[1,1]", &named(1)).len();
    let fitting = 1 + 65_485 - length;
    assert!(fitting < 64);
    let (fits, long) = (named(fitting), named(fitting + 1));
    check(
        &founding(2, "sent_limit = 1"),
        &[
            (&next(7, &long), r#"{"next":0,"refused":"BadSerial"}"#),
            (&next(0, &long), too_long),
            (&format!(r#"{{"do":"batch","caller":0,"serial":0,"commands":[{long}]}}"#), too_long),
            (&own(7, &batch(0, "[1,1]", &long)), too_long),
            (&next(0, &fits), &format!(r#"{{"message":{}}}"#, batch(0, "[1,1]", &fits))),
            (&own(1, &batch(0, "[1,1]", &fits)), r#"{"number":1}"#),
        ],
    );
}

#[test]
fn a_member_that_is_called_is_asked_more() {
    let founding = "version = 1\nmembers = 2\noperations = [\"pay\"]\nobjects = [\"ledger\"]\npermissions = []\n";
    let checked =
        |session: &str| format!(r#"{{"do":"check","session":"{session}","operation":"pay","object":"ledger"}}"#);
    let record = format!(r#"{{"answer":"Done","caller":0,"command":{ANN},"serial":0,"stamp":[1,1]}}"#);
    let rows = [
        (own(1, &batch(0, "[1,1]", ANN)), r#"{"number":1}"#),
        (receive(2, 1, r#"{"stamp":[2,2]}"#), r#"{"acknowledged":null}"#),
        (r#"{"do":"read","from":2}"#.into(), r#"{"number":1}"#),
        (r#"{"do":"serial","caller":0}"#.into(), r#"{"number":1}"#),
        (r#"{"do":"serial","caller":9}"#.into(), r#"{"number":0}"#),
        (checked("s1"), r#"{"answer":{"denied":"NoSession","number":10},"records":0}"#),
        (r#"{"do":"deliver"}"#.into(), &format!(r#"{{"number":1,"record":{record}}}"#)),
        (checked("s1"), r#"{"answer":{"denied":"NoSession","number":10},"records":1}"#),
        (checked("s 1"), r#"{"refused":"BadName"}"#),
    ];
    let rows: Vec<(&str, &str)> = rows.iter().map(|(line, wanted)| (line.as_str(), *wanted)).collect();
    check_by("called", founding, &rows);
    check(founding, &[(rows[2].0, r#"{"refused":"UnknownWord"}"#)]);
}

#[test]
fn a_message_by_calls_has_a_mebibyte() {
    let roles: Vec<String> = (0..975).map(|number| format!("\"{number:064}\"")).collect();
    let session = format!(r#"{{"name":"CreateSession","user":"ann","session":"s1","roles":[{}]}}"#, roles.join(","));
    let sessions = |count: usize| vec![session.clone(); count].join(",");
    let long = format!(r#"{{"message":{}}}"#, batch(0, "[1,1]", &sessions(16)));
    check_by(
        "called",
        &founding(1, ""),
        &[(&next(0, &sessions(16)), &long), (&next(0, &sessions(17)), r#"{"refused":"MessageTooLong"}"#)],
    );
    check_by("member", &founding(1, ""), &[(&next(0, &sessions(16)), r#"{"refused":"TooLong"}"#)]);
}
