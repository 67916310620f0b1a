//! Members of a group by what their caller sees.
use fochillun::{
    CheckError, Member, MemberError, OpenError, RestoreError, Subjects, SubjectsError, Waiting,
};

const FOUNDING: &[u8] = b"version = 1\nmembers = 2\nsent_limit = 6\noperations = [\"pay\", \"read\"]\nobjects = [\"ledger\"]\npermissions = [[\"read\", \"ledger\"]]\n";
const ANN: &str = r#"{"name":"AddUser","user":"ann"}"#;
const SENT_ANN: &str =
    r#"{"caller":7,"commands":[{"name":"AddUser","user":"ann"}],"serial":0,"stamp":[1,1]}"#;
const CLERK: &str = r#"[{"name":"AddRole","role":"clerk"},
    {"name":"GrantPermission","operation":"read","object":"ledger","role":"clerk"},
    {"name":"AssignUser","user":"ann","role":"clerk"},
    {"name":"CreateSession","user":"ann","session":"s1","roles":["clerk"]}]"#;

fn member(number: u32) -> Member {
    Member::open(FOUNDING, number).unwrap()
}

/// What a member tells of itself: all of it.
fn shown(member: &mut Member) -> (Vec<String>, Vec<String>, String, Option<Waiting>, u64) {
    let messages = (1..).map_while(|number| member.message(number).ok());
    let messages = messages.collect();
    let records = (1..).map_while(|number| member.record(number).ok());
    let records = records.collect();
    let dump = member.dump().unwrap();
    (
        messages,
        records,
        dump,
        member.waits(),
        member.next_serial(7),
    )
}

/// Brings one member what the other sent and it has not read, by its row first, and delivers what is due.
fn bring(from: (u32, &mut Member), to: &mut Member, row: &mut Vec<String>) {
    let (sender, from) = from;
    for number in to.read(sender) + 1.. {
        let Ok(message) = from.message(number as usize) else {
            break;
        };
        if let Some(answer) = to.next_answer(sender, number as u32, &message).unwrap() {
            row.push(answer);
            to.take_own(row.len() as u32, row.last().unwrap()).unwrap();
        }
        assert_eq!(to.receive(sender, number as u32, &message), Ok(None));
    }
    while to.deliver().unwrap().is_some() {}
}

#[test]
fn two_members_have_one_history_and_one_is_made_anew_of_its_row() {
    let (mut one, mut two) = (member(1), member(2));
    let mut rows = (Vec::new(), Vec::new());
    rows.0.push(one.next_submit(7, 0, ANN).unwrap());
    assert_eq!(rows.0[0], SENT_ANN);
    assert_eq!(one.take_own(1, &rows.0[0]), Ok(1));
    bring((1, &mut one), &mut two, &mut rows.1);
    rows.1.push(two.next_submit_batch(7, 0, CLERK).unwrap());
    assert_eq!(two.take_own(2, &rows.1[1]), Ok(2));
    bring((2, &mut two), &mut one, &mut rows.0);
    bring((1, &mut one), &mut two, &mut rows.1);
    let (told, other) = (shown(&mut one), shown(&mut two));
    assert_eq!(told.1.len(), 5);
    assert_eq!((&told.1, &told.2), (&other.1, &other.2));
    assert_eq!((&told.0, &other.0), (&rows.0, &rows.1));
    drop(two);
    let mut two = Member::restore(FOUNDING, 2, &rows.1).unwrap();
    assert_eq!(two.read(1), 0);
    bring((1, &mut one), &mut two, &mut rows.1);
    assert_eq!(shown(&mut two), other);
    assert_eq!(two.check("s1", "read", "ledger"), (Ok(true), 5));
    assert_eq!(two.check("s1", "pay", "ledger"), (Ok(false), 5));
}

#[test]
fn a_submit_leaves_what_its_next_message_leaves() {
    let (mut one, mut other) = (member(1), member(1));
    let (text, batch) = (
        one.next_submit(7, 0, ANN).unwrap(),
        format!("[{ANN},{ANN}]"),
    );
    one.take_own(1, &text).unwrap();
    assert_eq!(other.submit(7, 0, ANN), Ok(1));
    let text = one.next_submit_batch(7, 1, &batch).unwrap();
    one.take_own(2, &text).unwrap();
    assert_eq!(other.submit_batch(7, 1, &batch), Ok(2));
    assert_eq!(shown(&mut one), shown(&mut other));
    assert_eq!(one.next_serial(7), 3);
}

#[test]
fn a_receipt_tells_its_acknowledgement_and_a_delivery_its_record() {
    let (mut one, mut two) = (member(1), member(2));
    assert_eq!(one.submit(7, 0, ANN), Ok(1));
    let held = Waiting {
        clock: 1,
        member: 1,
        place: 0,
        awaited: 2,
    };
    assert_eq!((one.waits(), one.deliver()), (Some(held), Ok(None)));
    assert_eq!(two.receive(1, 1, SENT_ANN), Ok(Some(1)));
    assert_eq!(two.deliver(), Ok(Some(1)));
    let acknowledgement = two.message(1).unwrap();
    assert_eq!(acknowledgement, r#"{"stamp":[3,2]}"#);
    assert_eq!(one.next_answer(2, 1, &acknowledgement), Ok(None));
    assert_eq!(one.receive(2, 1, &acknowledgement), Ok(None));
    assert_eq!(one.deliver(), Ok(Some(1)));
    assert_eq!(one.waits(), None);
    assert_eq!(
        one.record(1).unwrap(),
        r#"{"answer":"Done","caller":7,"command":{"name":"AddUser","user":"ann"},"serial":0,"stamp":[1,1]}"#
    );
}

#[test]
fn an_observer_shows_what_the_member_shows_and_sends_nothing() {
    let (mut one, mut two) = (member(1), member(2));
    let mut observer = Member::observe(FOUNDING, 2).unwrap();
    assert_eq!(
        Member::observe(FOUNDING, 3).unwrap_err(),
        OpenError::UnknownMember
    );
    one.submit(7, 0, ANN).unwrap();
    one.submit_batch(7, 1, CLERK).unwrap();
    let observes = MemberError::Observes;
    assert_eq!(observer.submit(7, 0, ANN), Err(observes));
    assert_eq!(observer.submit_batch(7, 0, ""), Err(observes));
    assert_eq!(observer.next_submit(7, 0, "any"), Err(observes));
    assert_eq!(observer.next_submit_batch(7, 0, CLERK), Err(observes));
    let not_yet = MemberError::NotYet;
    assert_eq!(observer.receive(1, 1, SENT_ANN), Err(not_yet));
    assert_eq!(observer.next_answer(1, 1, SENT_ANN), Err(not_yet));
    assert_eq!(observer.receive(1, 1, "[]"), Err(MemberError::NotObject));
    let mut row = Vec::new();
    bring((1, &mut one), &mut two, &mut row);
    for (number, message) in (1..).zip(&row) {
        observer.take_own(number, message).unwrap();
    }
    bring((1, &mut one), &mut observer, &mut Vec::new());
    assert_eq!(shown(&mut observer), shown(&mut two));
    assert_eq!(observer.check("s1", "read", "ledger"), (Ok(true), 5));
    assert_eq!((not_yet.number(), observes.number()), (312, 313));
}

#[test]
fn a_review_is_answered_by_the_policy_of_the_history() {
    let (mut one, mut two) = (member(1), member(2));
    let users = r#"{"name":"AssignedUsers","role":"clerk"}"#;
    let check = r#"{"name":"CheckAccess","session":"s1","operation":"read","object":"ledger"}"#;
    let denied = r#"{"denied":"NoRole","number":4}"#;
    assert_eq!(two.review(users).unwrap(), denied);
    one.submit(7, 0, ANN).unwrap();
    one.submit_batch(7, 1, CLERK).unwrap();
    bring((1, &mut one), &mut two, &mut Vec::new());
    assert_eq!(two.review(users).unwrap(), r#"{"names":["ann"]}"#);
    assert_eq!(two.review(check).unwrap(), r#""Granted""#);
    assert_eq!(two.review(ANN), Err(MemberError::NotAReview));
    assert_eq!(two.review("{"), Err(MemberError::NotJson));
    assert_eq!(one.review(users).unwrap(), denied);
}

#[test]
fn who_may_is_told_by_the_policy_of_the_history() {
    let (mut one, mut two) = (member(1), member(2));
    let nobody = Subjects::default();
    assert_eq!(two.subjects("read", "ledger"), Ok(nobody.clone()));
    one.submit(7, 0, ANN).unwrap();
    one.submit_batch(7, 1, CLERK).unwrap();
    bring((1, &mut one), &mut two, &mut Vec::new());
    let ann = Subjects {
        sessions: vec!["s1".to_owned()],
        users: vec!["ann".to_owned()],
    };
    assert_eq!(two.subjects("read", "ledger"), Ok(ann));
    assert_eq!(one.subjects("read", "ledger"), Ok(nobody));
    let no_operation = Err(SubjectsError::NoOperation);
    assert_eq!(two.subjects("fly", "ledger"), no_operation);
    assert_eq!(two.subjects("read", ""), Err(SubjectsError::BadName));
}

#[test]
fn a_refusal_tells_what_would_be_next() {
    let mut two = member(2);
    two.receive(1, 1, SENT_ANN).unwrap();
    let [repeat, gap] = [
        MemberError::Repeat { next: Some(2) },
        MemberError::Gap { next: Some(2) },
    ];
    assert_eq!(two.receive(1, 1, SENT_ANN), Err(repeat));
    assert_eq!(two.receive(1, 3, SENT_ANN), Err(gap));
    assert_eq!(two.take_own(1, r#"{"stamp":[9,2]}"#), Err(repeat));
    assert_eq!(two.take_own(9, r#"{"stamp":[9,2]}"#), Err(gap));
    let serial = MemberError::BadSerial { next: Some(0) };
    assert_eq!(two.submit(7, 4, ANN), Err(serial));
    assert_eq!(two.submit_batch(7, 4, CLERK), Err(serial));
    let untold = [
        MemberError::BadSerial { next: None },
        MemberError::Repeat { next: None },
    ];
    assert_eq!(two.next_submit(7, 4, ANN), Err(untold[0]));
    assert_eq!(two.next_answer(1, 1, SENT_ANN), Err(untold[1]));
    assert_eq!((gap.number(), serial.number()), (306, 310));
    assert_eq!(gap.to_string(), "a message before it is missing");
}

#[test]
fn a_refused_call_says_why() {
    let mut one = member(1);
    assert_eq!(
        Member::open(FOUNDING, 3).unwrap_err(),
        OpenError::UnknownMember
    );
    assert_eq!(Member::open(b"", 1).unwrap_err(), OpenError::BadVersion);
    assert_eq!(one.submit(7, 0, "{"), Err(MemberError::NotJson));
    assert_eq!(one.submit_batch(7, 0, ANN), Err(MemberError::WrongKind));
    assert_eq!(one.submit_batch(7, 0, "[]"), Err(MemberError::BadBatch));
    assert_eq!(one.receive(1, 1, SENT_ANN), Err(MemberError::FromSelf));
    assert_eq!(one.receive(3, 1, SENT_ANN), Err(MemberError::UnknownMember));
    assert_eq!(
        one.receive(2, 1, SENT_ANN),
        Err(MemberError::StampNotRising)
    );
    assert_eq!(one.message(1), Err(MemberError::NotSent));
    assert_eq!(one.record(0), Err(MemberError::NotSent));
    assert_eq!(
        one.check("s1", "read", "ledger"),
        (Err(CheckError::NoSession), 0)
    );
    for serial in 0..6 {
        one.submit(7, serial, ANN).unwrap();
    }
    assert_eq!(one.submit(7, 6, ANN), Err(MemberError::SentFull));
    assert_eq!(one.waits().map(|waiting| waiting.clock), Some(1));
    let taken = Member::restore(FOUNDING, 2, [r#"{"stamp":[1,2]}"#, SENT_ANN]);
    let error = MemberError::StampNotRising;
    assert_eq!(
        taken.unwrap_err(),
        RestoreError::TakeOwn { number: 2, error }
    );
    let none: [&str; 0] = [];
    assert_eq!(
        Member::restore(FOUNDING, 0, none).unwrap_err(),
        RestoreError::Open(OpenError::UnknownMember)
    );
}

#[test]
fn a_text_longer_than_the_buffer_is_whole() {
    let mut one = member(1);
    let commands: Vec<String> = (0..64)
        .map(|i| format!(r#"{{"name":"AddUser","user":"user_of_a_long_name_{i:02}"}}"#))
        .collect();
    let batch = format!("[{}]", commands.join(","));
    let wanted = format!(r#"{{"caller":7,"commands":{batch},"serial":0,"stamp":[1,1]}}"#);
    assert_eq!(one.next_submit_batch(7, 0, &batch).unwrap(), wanted);
    one.submit_batch(7, 0, &batch).unwrap();
    assert_eq!(one.message(1).unwrap(), wanted);
    one.receive(2, 1, r#"{"stamp":[9,2]}"#).unwrap();
    while one.deliver().unwrap().is_some() {}
    let line = |command: &String| format!("{{\"at\":1,\"command\":{command}}}\n");
    assert_eq!(
        one.dump().unwrap(),
        commands.iter().map(line).collect::<String>()
    );
}

#[test]
fn a_member_goes_to_another_thread_and_comes_back() {
    let mut one = member(1);
    let mut one = std::thread::spawn(move || {
        one.submit(7, 0, ANN).unwrap();
        one
    })
    .join()
    .unwrap();
    assert_eq!(one.message(1).unwrap(), SENT_ANN);
}
