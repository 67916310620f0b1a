//! Groups of members: which messages are taken, and when a command is delivered.

mod grouping;
mod playing;

use grouping::{check, deliver, founding, played_lines, receive, submit};

fn add_user(at: u32, caller: u32, serial: u32, user: &str) -> String {
    submit(at, caller, serial, &grouping::add_user(user))
}

const NOTHING: &str = r#"{"answer":null}"#;
const TAKEN: &str = r#"{"acknowledged":null}"#;
const CLOCK_FULL: &str = r#"{"refused":"ClockFull"}"#;
const SENT_FULL: &str = r#"{"refused":"SentFull"}"#;

#[test]
fn a_refusal_names_what_comes_first() {
    let unknown = r#"{"refused":"UnknownMember"}"#;
    check(
        &founding(2, "clock = 9007199254740991\nsent_limit = 1"),
        &[
            (receive(3, 1, 0), unknown),
            (receive(1, 3, 0), unknown),
            (receive(0, 0, 0), unknown),
            (deliver(3), unknown),
            (add_user(3, 0, 7, "ann"), unknown),
            (receive(2, 2, 0), r#"{"refused":"FromSelf"}"#),
            (receive(1, 2, 0), r#"{"refused":"NotSent"}"#),
            (receive(1, 2, 4_294_967_295), r#"{"refused":"NotSent"}"#),
            (add_user(1, 0, 7, "ann"), CLOCK_FULL),
        ],
    );
    // One step is left: what is out of turn is refused before the clock is looked at, and the clock before what was sent.
    check(
        &founding(2, "clock = 9007199254740989\nsent_limit = 2"),
        &[
            (add_user(1, 0, 0, "ann"), r#"{"stamp":[9007199254740990,1]}"#),
            (add_user(1, 0, 7, "ann"), r#"{"next":1,"refused":"BadSerial"}"#),
            (add_user(1, 1, 0, "ann"), r#"{"stamp":[9007199254740991,1]}"#),
            (add_user(1, 1, 0, "ann"), CLOCK_FULL),
            (receive(2, 1, 2), r#"{"expected":1,"refused":"Gap"}"#),
            (receive(2, 1, 3), r#"{"refused":"NotSent"}"#),
            (receive(2, 1, 1), CLOCK_FULL),
        ],
    );
    check(
        &founding(2, "sent_limit = 1"),
        &[(add_user(1, 0, 0, "ann"), r#"{"stamp":[1,1]}"#), (add_user(1, 0, 7, "ann"), SENT_FULL)],
    );
}

/// Each takes what moves its clock to the end and no further, be it a command or an acknowledgement.
#[test]
fn clocks_reach_their_end_and_stay_there() {
    check(
        &founding(2, "clock = 9007199254740988"),
        &[
            (add_user(1, 0, 0, "ann"), r#"{"stamp":[9007199254740989,1]}"#),
            (receive(2, 1, 1), r#"{"acknowledged":[9007199254740991,2]}"#),
            (deliver(2), r#"{"answer":"Done","caller":0,"serial":0,"stamp":[9007199254740989,1]}"#),
            (add_user(2, 0, 0, "bob"), CLOCK_FULL),
            // It would move member 1's clock beyond the end, so member 1 never hears that member 2 has passed its command.
            (receive(1, 2, 1), CLOCK_FULL),
            (deliver(1), NOTHING),
        ],
    );
    check(
        &founding(3, "clock = 9007199254740987"),
        &[
            (add_user(1, 0, 0, "ann"), r#"{"stamp":[9007199254740988,1]}"#),
            (receive(2, 1, 1), r#"{"acknowledged":[9007199254740990,2]}"#),
            (deliver(1), NOTHING),
            (receive(1, 2, 1), TAKEN),
            (add_user(1, 0, 1, "ann"), CLOCK_FULL),
            (deliver(1), NOTHING),
            (receive(3, 2, 1), TAKEN),
            (receive(3, 1, 1), CLOCK_FULL),
        ],
    );
}

#[test]
fn an_acknowledgement_is_one_of_the_messages_that_may_be_sent() {
    check(
        &founding(2, "sent_limit = 2"),
        &[
            (add_user(1, 0, 0, "ann"), r#"{"stamp":[1,1]}"#),
            (receive(2, 1, 1), r#"{"acknowledged":[3,2]}"#),
            (add_user(2, 0, 0, "bob"), r#"{"stamp":[4,2]}"#),
            (add_user(2, 0, 1, "eve"), SENT_FULL),
            // An acknowledgement takes no room.
            (receive(1, 2, 1), TAKEN),
            (receive(1, 2, 2), r#"{"acknowledged":[6,1]}"#),
            (receive(2, 1, 2), TAKEN),
            (receive(2, 1, 2), r#"{"expected":3,"refused":"Repeat"}"#),
        ],
    );
}

/// Who has sent something later than a command does not acknowledge it: its clock makes one step, and it needs no room.
#[test]
fn a_command_is_acknowledged_where_nothing_later_was_sent() {
    let first = [(add_user(1, 0, 0, "ann"), r#"{"stamp":[1,1]}"#), (add_user(2, 0, 0, "bob"), r#"{"stamp":[1,2]}"#)];
    let mut rows = first.to_vec();
    rows.extend([
        // Of two stamps with one clock that of the larger member comes later.
        (receive(2, 1, 1), TAKEN),
        (deliver(2), r#"{"answer":"Done","caller":0,"serial":0,"stamp":[1,1]}"#),
        (deliver(2), NOTHING),
        (receive(1, 2, 1), SENT_FULL),
    ]);
    check(&founding(2, "sent_limit = 1"), &rows);
    let mut rows = first.to_vec();
    rows.extend([
        (receive(1, 2, 1), r#"{"acknowledged":[3,1]}"#),
        (add_user(2, 0, 1, "eve"), r#"{"stamp":[2,2]}"#),
        (receive(1, 2, 2), TAKEN),
        (add_user(1, 0, 1, "eve"), r#"{"stamp":[5,1]}"#),
    ]);
    check(&founding(2, ""), &rows);
    // One step is left to member 2, which is enough for what it does not acknowledge, and then none.
    check(
        &founding(2, "clock = 9007199254740988"),
        &[
            (add_user(1, 0, 0, "ann"), r#"{"stamp":[9007199254740989,1]}"#),
            (add_user(1, 0, 1, "bob"), r#"{"stamp":[9007199254740990,1]}"#),
            (add_user(2, 0, 0, "ann"), r#"{"stamp":[9007199254740989,2]}"#),
            (add_user(2, 0, 1, "bob"), r#"{"stamp":[9007199254740990,2]}"#),
            (receive(2, 1, 1), TAKEN),
            (receive(2, 1, 2), CLOCK_FULL),
            (receive(1, 2, 1), TAKEN),
        ],
    );
}

/// Callers of one number at two members are two callers.
#[test]
fn serials_are_counted_at_each_member() {
    check(
        &founding(2, ""),
        &[
            (add_user(1, 5, 0, "ann"), r#"{"stamp":[1,1]}"#),
            (receive(2, 1, 1), r#"{"acknowledged":[3,2]}"#),
            (add_user(2, 5, 1, "ann"), r#"{"next":0,"refused":"BadSerial"}"#),
            (add_user(2, 5, 0, "ann"), r#"{"stamp":[4,2]}"#),
        ],
    );
}

/// In a group of eight a command waits for the last of the six others.
#[test]
fn a_silent_member_stops_delivery() {
    let mut rows = vec![(add_user(1, 0, 0, "ann"), r#"{"stamp":[1,1]}"#)];
    let acknowledged: Vec<String> = (2..=8).map(|number| format!(r#"{{"acknowledged":[3,{number}]}}"#)).collect();
    rows.extend((2..=8).zip(&acknowledged).map(|(at, answer)| (receive(at, 1, 1), answer.as_str())));
    for from in 3..=8 {
        rows.extend([(deliver(2), NOTHING), (receive(2, from, 1), TAKEN)]);
    }
    rows.push((deliver(2), r#"{"answer":"Done","caller":0,"serial":0,"stamp":[1,1]}"#));
    rows.push((deliver(2), NOTHING));
    check(&founding(8, ""), &rows);
}

/// The limit of users is met by the same command at each member.
#[test]
fn each_member_denies_the_same_command() {
    const USERS: u32 = 4_097;
    let mut lines: Vec<String> = (0..USERS).map(|serial| add_user(1, 0, serial, &format!("u{}", serial + 1))).collect();
    lines.extend((1..=USERS).map(|number| receive(2, 1, number)));
    lines.extend((1..=USERS).map(|number| receive(1, 2, number)));
    lines.extend((0..2 * USERS).map(|place| deliver(1 + place / USERS)));
    let answers = played_lines(&founding(2, ""), &lines);
    let delivered: Vec<&String> = answers[3 * USERS as usize..].iter().collect();
    for (place, answer) in delivered.iter().enumerate() {
        let is_last = place as u32 % USERS == USERS - 1;
        let wanted = if is_last { r#"{"answer":{"denied":"Limit","number":26},"# } else { r#"{"answer":"Done","# };
        assert!(answer.starts_with(wanted), "{answer}");
    }
}
