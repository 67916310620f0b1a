//! Rows that lose their end.
use crate::process::Process;
use crate::schedule;
use crate::world::World;
use fochillund::node::{Asked, NodeFault};
use fochillund::row_member::{MemberFault, NewCall};
use rand::Rng;
use rows::cell::Cell;
use rows::RowName;
use serde_json::value::RawValue;

fn row_of(member: u32) -> (String, RowName) {
    let node = format!("n{member}");
    let row = RowName::of_node(&node, 1).expect("a name");
    (node, row)
}

/// A row loses its end, and its member goes on with what is left. Who had read of the lost cells has to see it.
pub fn lose_an_end(world: &mut World) {
    let members = world.foundings.nodes(1).len() as u32;
    let member = world.random.gen_range(1..=members);
    let (node, row) = row_of(member);
    let there = world.rows.get(&row).len();
    if there == 0 {
        return;
    }
    let left = world.random.gen_range(0..there);
    world.note(|| format!("the row of member {member} loses all but {left} cells"));
    world.drop_flights();
    world
        .rows
        .0
        .get_mut(&row)
        .expect("it is there")
        .truncate(left);
    world.processes.retain(|it| it.node.as_ref() != Some(&node));
    for other in (1..=members).filter(|it| *it != member) {
        check_ends_tell(world, other, member, left);
    }
    write_otherwise(world, member, there);
    check_chains_tell(world, member, left);
}

/// A process that is made anew is told where its own cells say that more was taken.
fn check_ends_tell(world: &mut World, member: u32, lost: u32, left: usize) {
    let (node, row) = row_of(member);
    let own = world.rows.get(&row).iter();
    let cells = own.map(|text| serde_json::from_slice(text).expect("a cell"));
    let taken = cells.map(|cell: Cell| cell.taken[lost as usize - 1]);
    let most = taken.max().unwrap_or(0);
    let mut made = Process::begin(&world.rows, Some(&node), usize::MAX, 1);
    let went = made.go_to(&world.rows, &world.seen, usize::MAX);
    let told = went.err().map(|fault| match fault {
        NodeFault::Member {
            fault:
                MemberFault::LostEnd {
                    member,
                    there,
                    taken,
                },
            ..
        } => (member, there, taken),
        other => panic!("{other}"),
    });
    let there = left as u64;
    assert_eq!(told, (most > there).then_some((lost, there, most)));
    world.figures.lost_by_ends += usize::from(told.is_some());
}

/// The member is made anew of what is left, and goes on to where the row was, and one cell further.
fn write_otherwise(world: &mut World, member: u32, there: usize) {
    let name = world.figures.processes;
    world.figures.processes += 1;
    let (node, row) = row_of(member);
    let mut process = Process::begin(&world.rows, Some(&node), name, 1);
    let went = process.go_to(&world.rows, &world.seen, usize::MAX);
    went.expect("a process of its row");
    for number in 0..=there {
        let command = format!(r#"[{{"name":"AddUser","user":"other{number}"}}]"#);
        let call = NewCall {
            identity: None,
            commands: RawValue::from_string(command).expect("JSON"),
        };
        let generation = 1;
        let asked = Asked {
            generation,
            member,
            call,
        };
        process.held.ask(asked, 0);
        let Some(next) = process.held.next_cell().expect("a message") else {
            return;
        };
        world.rows.0.entry(row.clone()).or_default().push(next.text);
        process.held.was_set(1).expect("a message");
    }
}

/// Who had read further than what is left stops at the first cell that is new to it.
fn check_chains_tell(world: &mut World, member: u32, left: usize) {
    let (_, row) = row_of(member);
    let length = world.rows.get(&row).len();
    for process in &mut world.processes {
        let had = process.read_of(member);
        let told = process.read(&world.rows, member, usize::MAX);
        if length > had {
            assert_eq!(
                told.is_err(),
                had > left,
                "{had} read, and {left} were left"
            );
            world.figures.lost_by_chain += usize::from(told.is_err());
        }
    }
}

/// Plays a schedule in which a row loses its end.
pub fn play(world: &mut World) {
    world.may_change = false;
    schedule::play(world);
    lose_an_end(world);
}
