//! A member over its row, where it could go wrong: each test is named for what has to hold.
//!
//! Of the 14 holes that the study of rows found, each has a test by name, here or where its part is tested:
//!
//! 1. what is delivered behind an acknowledgement that is lost: `nothing_is_delivered_behind_an_acknowledgement_that_is_not_set`
//! 2. a seal that is no message: `a_seal_is_an_acknowledgement_that_ends_a_row`, in `generations`
//! 3. an own seal behind another's: `another_seal_waits_for_the_own_one`, in `generations`
//! 4. a call between a dump's batches: `nobody_sends_a_call_before_it_has_the_dump`, in `generations`
//! 5. a set whose reply was lost: `what_became_of_a_set_is_found_where_replies_are_lost`, of each engine in `rows`
//! 6. several cells in one set: `cells_are_set_once_in_order_and_together`, of each engine in `rows`
//! 7. a row that lost its end: `a_row_that_lost_its_end_is_told_at_recovery`, `a_cell_of_another_chain_stops`
//! 8. what another generation left: `a_cell_of_another_generation_or_member_stops`
//! 9. a call that is asked elsewhere: `what_is_asked_wrongly_is_refused_and_not_carried_out`, of the processes' callers
//! 10. other rules: `whoever_joins_with_another_founding_stops`, in `process`
//! 11. the end of a row's numbers: `a_row_at_its_limit_refuses_and_what_was_sent_is_answered`
//! 12. a read of what can be lost: `what_the_standby_may_not_have_is_not_shown`, and the disk that forgets, both in `rows`
//! 13. old rows that are deleted: `a_trimmed_row_keeps_its_end_and_never_begins_anew`, of each engine in `rows`
//! 14. two healthy processes: `a_second_process_of_a_member_waits_politely`, of the processes' callers
use bytes::Bytes;
use fochillun::{Member, MemberError};
use fochillund::generation::{Foundings, Generation};
use fochillund::row_member::{
    Begins, MemberFault, NewCall, Refusal, Reply, MOST_BYTES, MOST_WAITING,
};
use fochillund::{check_ends, RowMember};
use rows::cell::{Cell, Chain, Identity, Why};
use rows::RowName;
use serde_json::value::RawValue;

type Held = RowMember<u32>;

fn founding(members: u32, more: &str) -> String {
    format!(
        "version = 1\nmembers = {members}\n{more}operations = []\nobjects = []\npermissions = []\n"
    )
}

/// The first generation of a group of so many members.
fn generation(founding: &str, members: u32) -> Generation {
    let nodes: Vec<String> = (1..=members).map(|member| format!("n{member}")).collect();
    let mut foundings = Foundings::new();
    let (_, text) = foundings.proposal(&nodes, Some(founding), "");
    foundings.take(&text).unwrap();
    foundings.first()
}

/// The start of a row in a group of two.
fn chain_of(founding: &str, member: u32) -> Chain {
    generation(founding, 2).chain(member)
}

fn cells_of(generation: &Generation, member: u32, row: &[Bytes]) -> (Chain, Vec<Cell>) {
    let mut chain = generation.chain(member);
    let cells = row.iter().map(|text| chain.take(text).unwrap()).collect();
    (chain, cells)
}

fn made_of(founding: &str, members: u32, member: u32, row: &[Bytes]) -> Held {
    let generation = generation(founding, members);
    let (chain, cells) = cells_of(&generation, member, row);
    let writer = format!("w{}", row.len());
    RowMember::restore(&generation, member, Begins::Empty, writer, chain, &cells).unwrap()
}

fn call(id: Option<&str>, commands: &str) -> NewCall {
    NewCall {
        identity: id.map(|id| Identity {
            caller: "ann".to_owned(),
            id: id.to_owned(),
        }),
        commands: RawValue::from_string(commands.to_owned()).unwrap(),
    }
}

fn add_user(user: &str) -> String {
    format!(r#"[{{"name":"AddUser","user":"{user}"}}]"#)
}

/// Sets the next cell in the row.
fn set(held: &mut Held, row: &mut Vec<Bytes>) {
    let (number, text) = held.next_cell().unwrap().expect("a cell");
    assert_eq!(number, row.len() as u64 + 1);
    row.push(text);
    held.was_set().unwrap();
}

/// What one caller is told now.
fn told(held: &mut Held) -> Vec<(u32, Reply)> {
    held.take_told()
}

fn refused(held: &mut Held, asked: NewCall) -> Refusal {
    held.ask(asked, 99);
    match told(held).pop() {
        Some((99, Err(refusal))) => refusal,
        other => panic!("{other:?}"),
    }
}

/// How many commands each call of a cell has.
fn calls_in(text: &[u8]) -> Vec<usize> {
    let cell: Cell = serde_json::from_slice(text).unwrap();
    cell.calls.iter().map(|call| call.commands).collect()
}

#[test]
fn a_message_has_no_effect_before_its_cell_is_set() {
    let founding = founding(1, "");
    let mut held = made_of(&founding, 1, 1, &[]);
    held.ask(call(None, &add_user("bob")), 1);
    let (number, text) = held.next_cell().unwrap().unwrap();
    assert_eq!(number, 1);
    held.turn().unwrap();
    assert_eq!(held.next_cell().unwrap(), None);
    assert_eq!((held.history_length(), held.taken()), (0, vec![0]));
    assert!(told(&mut held).is_empty());
    held.was_set().unwrap();
    assert_eq!((held.history_length(), held.taken()), (1, vec![1]));
    let record = held.records(1..2).pop().unwrap();
    assert_eq!(told(&mut held), [(1, Ok(vec![record]))]);
    assert_eq!(calls_in(&text), [1]);
}

#[test]
fn nothing_is_delivered_behind_an_acknowledgement_that_is_not_set() {
    let founding = founding(2, "");
    let (mut one, mut row) = (made_of(&founding, 2, 1, &[]), Vec::new());
    one.ask(call(None, &add_user("bob")), 1);
    set(&mut one, &mut row);
    let mut two = made_of(&founding, 2, 2, &[]);
    two.put_cell(1, chain_of(&founding, 1).take_sent(&row[0]).unwrap())
        .unwrap();
    let (number, acknowledgement) = two.next_cell().unwrap().unwrap();
    two.turn().unwrap();
    assert_eq!((number, two.history_length()), (1, 0));
    assert_eq!(two.taken(), [1, 0]);
    // Whoever is made anew before it is set may send something earlier, and shows nothing that would stand behind that.
    let mut anew = made_of(&founding, 2, 2, &[]);
    anew.ask(call(None, &add_user("eve")), 1);
    let other = anew.next_cell().unwrap().unwrap();
    assert!(other.0 == 1 && other.1 != acknowledgement);
    two.was_set().unwrap();
    assert_eq!((two.history_length(), two.taken()), (1, vec![1, 1]));
}

#[test]
fn an_id_asked_again_after_a_restore_is_answered_of_the_history() {
    let founding = founding(1, "");
    let (mut held, mut row) = (made_of(&founding, 1, 1, &[]), Vec::new());
    held.ask(call(None, &add_user("bob")), 0);
    held.ask(call(Some("a"), &add_user("bob")), 1);
    set(&mut held, &mut row);
    let first = told(&mut held).pop().unwrap().1.unwrap();
    assert!(first[0].contains("UserExists"));
    let mut anew = made_of(&founding, 1, 1, &row);
    anew.ask(call(Some("a"), &add_user("bob")), 2);
    assert_eq!(anew.next_cell().unwrap(), None);
    assert_eq!(told(&mut anew), [(2, Ok(first.clone()))]);
    let spaced = r#" [ {"user" : "bob", "name":"AddUser"} ]"#;
    anew.ask(call(Some("a"), spaced.trim()), 3);
    assert_eq!(told(&mut anew), [(3, Ok(first))]);
}

#[test]
fn an_id_with_other_commands_is_refused() {
    let founding = founding(1, "");
    let (mut held, mut row) = (made_of(&founding, 1, 1, &[]), Vec::new());
    let other = || call(Some("a"), &add_user("eve"));
    held.ask(call(Some("a"), &add_user("bob")), 1);
    assert_eq!(refused(&mut held, other()), Refusal::OtherCommands);
    row.push(held.next_cell().unwrap().unwrap().1);
    assert_eq!(refused(&mut held, other()), Refusal::OtherCommands);
    held.was_set().unwrap();
    assert_eq!(told(&mut held).len(), 1);
    assert_eq!(refused(&mut held, other()), Refusal::OtherCommands);
    let mut anew = made_of(&founding, 1, 1, &row);
    assert_eq!(refused(&mut anew, other()), Refusal::OtherCommands);
    assert_eq!(anew.next_cell().unwrap(), None);
    assert_eq!(anew.history_length(), 1);
}

#[test]
fn a_cell_whose_calls_are_not_those_of_its_message_stops() {
    let founding = founding(1, "");
    let (mut held, mut row) = (made_of(&founding, 1, 1, &[]), Vec::new());
    held.ask(call(Some("a"), &add_user("bob")), 1);
    set(&mut held, &mut row);
    let generation = generation(&founding, 1);
    let (chain, mut cells) = cells_of(&generation, 1, &row);
    cells[0].calls[0].commands = 2;
    let made = Held::restore(&generation, 1, Begins::Empty, "w".to_owned(), chain, &cells);
    assert_eq!(made.err(), Some(MemberFault::Calls(1)));
}

#[test]
fn an_id_of_another_caller_is_another() {
    let founding = founding(1, "");
    let (mut held, mut row) = (made_of(&founding, 1, 1, &[]), Vec::new());
    held.ask(call(Some("a"), &add_user("bob")), 1);
    let mut other = call(Some("a"), &add_user("eve"));
    other.identity.as_mut().unwrap().caller = "bob".to_owned();
    held.ask(other, 2);
    set(&mut held, &mut row);
    assert_eq!((told(&mut held).len(), held.history_length()), (2, 2));
}

#[test]
fn calls_that_wait_go_together_up_to_64_commands() {
    let founding = founding(1, "");
    let (mut held, mut row) = (made_of(&founding, 1, 1, &[]), Vec::new());
    for number in 0..70 {
        held.ask(call(None, &add_user(&format!("u{number}"))), number);
    }
    set(&mut held, &mut row);
    assert_eq!(calls_in(&row[0]), [1; 64]);
    let answered: Vec<u32> = told(&mut held).iter().map(|(waiter, _)| *waiter).collect();
    assert_eq!(answered, (0..64).collect::<Vec<_>>());
    set(&mut held, &mut row);
    assert_eq!(calls_in(&row[1]), [1; 6]);
    assert_eq!(held.next_cell().unwrap(), None);
    let two = |at: u32| {
        format!(
            "[{0},{0}]",
            add_user(&format!("v{at}")).trim_matches(['[', ']'])
        )
    };
    for number in 0..33 {
        held.ask(call(None, &two(number)), number);
    }
    set(&mut held, &mut row);
    assert_eq!(calls_in(&row[2]), [2; 32]);
}

/// A command of some 64 bytes for each of these roles, and so many for another one.
fn long_command(roles: usize, more: usize) -> String {
    let role = "r".repeat(58);
    let roles: Vec<String> = (0..roles).map(|at| format!("\"{role}{at:03}\",")).collect();
    let (roles, more) = (roles.concat(), "q".repeat(more));
    format!(r#"{{"name":"CreateSession","user":"bob","session":"s","roles":[{roles}"{more}"]}}"#)
}

#[test]
fn calls_that_wait_go_together_up_to_256_kilobytes() {
    let founding = founding(1, "");
    let (mut held, mut row) = (made_of(&founding, 1, 1, &[]), Vec::new());
    let long = long_command(950, 1);
    for number in 0..5 {
        held.ask(call(None, &format!("[{long}]")), number);
    }
    held.ask(call(None, &format!("[{0},{0},{0},{0},{0}]", long)), 5);
    held.ask(call(None, &add_user("bob")), 6);
    let fit = MOST_BYTES / (long.len() + 1);
    assert!(fit < 5);
    for calls in [vec![1; fit], vec![1; 5 - fit], vec![5], vec![1]] {
        set(&mut held, &mut row);
        assert_eq!(calls_in(row.last().unwrap()), calls);
    }
    assert_eq!(told(&mut held).len(), 7);
}

/// The commands of a call whose message has just this length, where it is the member's first.
fn call_of_length(founding: &str, length: usize) -> String {
    let command = long_command(0, 1);
    let mut first = Member::open(founding.as_bytes(), 1).unwrap();
    let message = first.next_submit_batch(0, 0, &format!("[{command}]"));
    let begin = format!("{},", long_command(950, 1)).repeat(16);
    let left = length - begin.len() - message.unwrap().len();
    let call = format!("[{begin}{}]", long_command(left / 64, 1 + left % 64));
    assert!(call.len() < length);
    call
}

#[test]
fn a_call_that_no_cell_has_room_for_is_refused_alone() {
    let founding = founding(1, "");
    let (mut held, mut row) = (made_of(&founding, 1, 1, &[]), Vec::new());
    // The next stamp and the next serial have more digits than the first ones.
    for at in 0..12 {
        held.ask(call(None, &add_user(&format!("u{at}"))), at);
        set(&mut held, &mut row);
    }
    told(&mut held);
    let (mut taken, mut refused) = (0, 0);
    for more in [-60, -1, 0, 1, 64, 3000, 4096, 40_000] {
        let commands = call_of_length(&founding, (995_904 + more) as usize);
        // In a cell each of its bytes takes six.
        let id = format!("{}{more:08}", "\u{1}".repeat(120));
        held.ask(call(Some(&id), &commands), 1);
        match told(&mut held).pop() {
            Some((1, Err(Refusal::Commands(MemberError::MessageTooLong)))) => refused += 1,
            None => {
                set(&mut held, &mut row);
                assert!(row.last().unwrap().len() <= 1_000_000);
                assert!(matches!(told(&mut held)[..], [(1, Ok(_))]));
                taken += 1;
            }
            other => panic!("{other:?}"),
        }
    }
    assert_eq!((taken, refused), (3, 5));
}

#[test]
fn a_full_queue_refuses() {
    let founding = founding(1, "");
    let mut held = made_of(&founding, 1, 1, &[]);
    for number in 0..MOST_WAITING as u32 {
        let id = (number == 7).then_some("a");
        held.ask(call(id, &add_user("bob")), number);
    }
    assert!(told(&mut held).is_empty());
    let refusal = refused(&mut held, call(None, &add_user("eve")));
    assert_eq!(refusal, Refusal::Busy);
    held.ask(call(Some("a"), &add_user("bob")), 5000);
    assert!(told(&mut held).is_empty());
    set(&mut held, &mut Vec::new());
    let answered = told(&mut held);
    assert!(answered
        .iter()
        .any(|(waiter, reply)| *waiter == 5000 && reply.is_ok()));
    held.ask(call(None, &add_user("eve")), 5001);
    assert!(told(&mut held).is_empty());
}

#[test]
fn a_row_at_its_limit_refuses_and_what_was_sent_is_answered() {
    // The last cell of each row is for its seal.
    let founding = founding(2, "sent_limit = 2\n");
    let (mut one, mut two) = (made_of(&founding, 2, 1, &[]), made_of(&founding, 2, 2, &[]));
    let (mut row, mut theirs) = (Vec::new(), Vec::new());
    one.ask(call(Some("a"), &add_user("bob")), 1);
    set(&mut one, &mut row);
    one.ask(call(None, &add_user("eve")), 2);
    assert_eq!(one.next_cell().unwrap(), None);
    assert_eq!(told(&mut one), [(2, Err(Refusal::Full))]);
    let refusal = refused(&mut one, call(None, &add_user("eve")));
    assert_eq!(refusal, Refusal::Full);
    one.ask(call(Some("a"), &add_user("bob")), 3);
    let mut chains = [1, 2].map(|member| chain_of(&founding, member));
    two.put_cell(1, chains[0].take_sent(&row[0]).unwrap())
        .unwrap();
    set(&mut two, &mut theirs);
    one.put_cell(2, chains[1].take_sent(&theirs[0]).unwrap())
        .unwrap();
    one.turn().unwrap();
    let answered: Vec<u32> = told(&mut one).iter().map(|(waiter, _)| *waiter).collect();
    assert_eq!((answered, one.history_length()), (vec![1, 3], 1));
}

#[test]
fn a_row_that_lost_its_end_is_told_at_recovery() {
    let founding = founding(2, "");
    let (mut one, mut row) = (made_of(&founding, 2, 1, &[]), Vec::new());
    let (mut two, mut theirs) = (made_of(&founding, 2, 2, &[]), Vec::new());
    let mut chain = chain_of(&founding, 1);
    for user in ["ann", "bob"] {
        one.ask(call(None, &add_user(user)), 1);
        set(&mut one, &mut row);
        let sent = chain.take_sent(row.last().unwrap()).unwrap();
        two.put_cell(1, sent).unwrap();
    }
    set(&mut two, &mut theirs);
    two.ask(call(None, &add_user("eve")), 1);
    set(&mut two, &mut theirs);
    let lost = MemberFault::LostEnd {
        member: 1,
        there: 1,
        taken: 2,
    };
    let two_members = generation(&founding, 2);
    let cells = |row: &[Bytes]| cells_of(&two_members, 2, row).1;
    assert_eq!(check_ends(&cells(&theirs), &[2, 0]), Ok(()));
    assert_eq!(check_ends(&cells(&theirs), &[1, 9]), Err(lost.clone()));
    assert_eq!(check_ends(&[], &[0, 0]), Ok(()));
    // Made anew it has taken nothing yet when it sends: its last cell tells of less.
    let mut anew = made_of(&founding, 2, 2, &theirs);
    anew.ask(call(None, &add_user("joe")), 1);
    set(&mut anew, &mut theirs);
    assert_eq!(cells(&theirs).last().unwrap().taken, [0, 2]);
    assert_eq!(check_ends(&cells(&theirs), &[1, 3]), Err(lost));
}

#[test]
fn a_cell_of_another_chain_stops() {
    let founding = founding(1, "");
    let (mut one, mut row) = (made_of(&founding, 1, 1, &[]), Vec::new());
    let (mut other, mut others) = (made_of(&founding, 1, 1, &[]), Vec::new());
    for user in ["bob", "eve"] {
        one.ask(call(None, &add_user(user)), 1);
        set(&mut one, &mut row);
        other.ask(call(None, &add_user("joe")), 1);
        set(&mut other, &mut others);
    }
    let mut chain = generation(&founding, 1).chain(1);
    chain.take(&row[0]).unwrap();
    assert_eq!(chain.take(&others[1]).unwrap_err().why, Why::OtherChain);
    assert_eq!(chain.take(&row[0]).unwrap_err().why, Why::OtherPlace);
    chain.take(&row[1]).unwrap();
    let mut elsewhere = chain_of("another founding", 1);
    assert_eq!(elsewhere.take(&row[0]).unwrap_err().why, Why::OtherChain);
}

#[test]
fn a_cell_of_another_generation_or_member_stops() {
    let founding = founding(2, "");
    let (mut one, mut row) = (made_of(&founding, 2, 1, &[]), Vec::new());
    one.ask(call(None, &add_user("bob")), 1);
    set(&mut one, &mut row);
    for (generation, member) in [(2, 1), (1, 2)] {
        let name = RowName::of_node("n1", generation).unwrap();
        let mut chain = Chain::of(name, generation, member, founding.as_bytes());
        assert_eq!(chain.take(&row[0]).unwrap_err().why, Why::OtherPlace);
        assert_eq!(chain.take_sent(&row[0]).unwrap_err().why, Why::OtherPlace);
        assert_eq!(chain.next(), 1);
    }
}

#[test]
fn what_is_no_command_is_refused_and_sends_nothing() {
    let founding = founding(1, "");
    let mut held = made_of(&founding, 1, 1, &[]);
    let refusals = [
        ("[]", MemberError::BadBatch),
        ("7", MemberError::WrongKind),
        (r#"[{"name":"Fly"}]"#, MemberError::UnknownWord),
        (r#"[{"name":"AddUser","user":"a b"}]"#, MemberError::BadName),
    ];
    for (commands, why) in refusals {
        let refusal = refused(&mut held, call(Some("a"), commands));
        assert_eq!(refusal, Refusal::Commands(why), "{commands}");
    }
    assert_eq!(held.next_cell().unwrap(), None);
}

/// A member reads so many more cells of another's row.
fn read(held: &mut Held, chain: &mut Chain, row: &[Bytes], cells: usize) {
    let from = chain.next() as usize - 1;
    for text in &row[from..from + cells] {
        let cell = chain.take_sent(text).unwrap();
        let member = if chain.row().as_str() == "n1/g1" {
            1
        } else {
            2
        };
        held.put_cell(member, cell).unwrap();
    }
}

#[test]
fn a_message_that_wants_an_acknowledgement_no_more_is_taken_without_any_event() {
    let founding = founding(2, "");
    let (mut one, mut row) = (made_of(&founding, 2, 1, &[]), Vec::new());
    let (mut two, mut theirs) = (made_of(&founding, 2, 2, &[]), Vec::new());
    let [mut of_one, mut of_two] = [1, 2].map(|member| chain_of(&founding, member));
    let asked = |held: &mut Held, user: &str| held.ask(call(None, &add_user(user)), 1);
    for user in ["ann", "bob"] {
        asked(&mut two, user);
        set(&mut two, &mut theirs);
    }
    read(&mut one, &mut of_two, &theirs, 1);
    asked(&mut one, "cat");
    asked(&mut two, "dan");
    // This set is not told yet.
    theirs.push(two.next_cell().unwrap().unwrap().1);
    read(&mut one, &mut of_two, &theirs, 1);
    set(&mut one, &mut row);
    read(&mut one, &mut of_two, &theirs, 1);
    asked(&mut one, "eve");
    set(&mut one, &mut row);
    read(&mut two, &mut of_one, &row, 2);
    asked(&mut two, "joe");
    two.was_set().unwrap();
    // Behind the call both messages of the other one, which wanted acknowledgements, want none.
    set(&mut two, &mut theirs);
    assert_eq!(two.next_cell().unwrap(), None);
    assert_eq!(two.taken(), [2, 4]);
}

#[test]
fn calls_acknowledge_what_was_read() {
    let founding = founding(2, "");
    let (mut one, mut two) = (made_of(&founding, 2, 1, &[]), made_of(&founding, 2, 2, &[]));
    let mut rows = [Vec::new(), Vec::new()];
    let mut chains = [chain_of(&founding, 1), chain_of(&founding, 2)];
    for user in ["bob", "eve", "joe"] {
        one.ask(call(None, &add_user(user)), 1);
        set(&mut one, &mut rows[0]);
    }
    read(&mut two, &mut chains[0], &rows[0], 3);
    two.ask(call(None, &add_user("ann")), 2);
    // Its one message is later than all that was read, none of which the library has taken before.
    assert_eq!(two.taken(), [0, 0]);
    set(&mut two, &mut rows[1]);
    assert_eq!((two.taken(), two.history_length()), (vec![3, 1], 3));
    assert_eq!(two.next_cell().unwrap(), None);
    read(&mut one, &mut chains[1], &rows[1], 1);
    // What was set before is told while the acknowledgement is being set; what it acknowledges is not.
    let (_, acknowledgement) = one.next_cell().unwrap().unwrap();
    one.turn().unwrap();
    assert_eq!((one.taken(), one.history_length()), (vec![3, 1], 3));
    assert_eq!(told(&mut one).len(), 3);
    one.was_set().unwrap();
    assert_eq!((one.taken(), one.history_length()), (vec![4, 1], 4));
    rows[0].push(acknowledgement);
    let mut anew = made_of(&founding, 2, 1, &rows[0]);
    chains[1] = chain_of(&founding, 2);
    read(&mut anew, &mut chains[1], &rows[1], 1);
    anew.turn().unwrap();
    assert_eq!(anew.records(1..5), one.records(1..5));
}
