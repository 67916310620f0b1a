//! What happens next, at random; and how everything is brought everywhere in the end.
use crate::commands;
use crate::world::World;
use rand::seq::SliceRandom;
use rand::Rng;
use rows::cell::Identity;
use rows::RowName;

/// Plays some steps.
pub fn play(world: &mut World) {
    let steps = world.random.gen_range(100..220);
    for node in world.nodes() {
        world.start(Some(&node), 1, 0);
    }
    for _ in 0..steps {
        step(world);
    }
}

/// One step.
pub fn step(world: &mut World) {
    if world.processes.is_empty() {
        return start(world);
    }
    let at = world.random.gen_range(0..world.processes.len());
    match world.random.gen_range(0..100) {
        0..=2 => start(world),
        3..=4 => world.kill(at),
        5..=25 => ask(world, at),
        26..=27 => change(world),
        28..=30 => drop(world.read_foundings(at, 1)),
        31..=32 => world.watch(at),
        33..=49 => begin(world, at),
        50..=74 => read(world, at),
        75..=79 => world.turn(at),
        80..=83 => drop(world.look(at)),
        _ => fly(world),
    }
}

/// A generation is proposed, or a row is sealed for one.
fn change(world: &mut World) {
    match world.random.gen_ratio(1, 3) {
        true => world.propose(),
        false => world.seal_any(),
    }
}

/// A process of a node that has none, or of any, or one that only follows; it may be made of an old prefix of the rows.
fn start(world: &mut World) {
    let there = world.foundings.latest() as usize;
    let foundings = match world.random.gen_ratio(1, 4) {
        true => world.random.gen_range(1..=there),
        false => there,
    };
    if world.may_change && world.random.gen_ratio(1, 6) {
        return world.start(None, foundings, 0);
    }
    let nodes = world.nodes();
    let lacks = |node: &&String| {
        let mut running = world.processes.iter();
        running.all(|it| it.node.as_ref() != Some(*node))
    };
    let lacking = nodes.iter().find(lacks).cloned();
    let any = nodes
        .choose(&mut world.random)
        .expect("there are some")
        .clone();
    let node = lacking.unwrap_or(any);
    let cells = match world.random.gen_ratio(1, 4) {
        true => world.random.gen_range(0..=8),
        false => usize::MAX,
    };
    world.figures.old_prefixes += usize::from(cells != usize::MAX);
    world.start(Some(&node), foundings, cells);
}

/// A call is asked: a new one, one that was asked before, or another one under an identity that is there; as a rule of the generation that its node is
/// in.
fn ask(world: &mut World, at: usize) {
    let Some(node) = world.processes[at].node.clone() else {
        return;
    };
    let now = world.processes[at].held.generation().number;
    let generation = match world.random.gen_range(0..20) {
        0 => now + 1,
        1..=3 => now.saturating_sub(1).max(1),
        _ => now,
    };
    let is_known = |call: &usize| {
        let call = &world.seen.calls[*call];
        call.node == node && call.generation == generation && call.identity.is_some()
    };
    let known: Vec<usize> = (0..world.seen.calls.len()).filter(is_known).collect();
    let before = known.choose(&mut world.random).copied();
    let identity = match (before, world.random.gen_range(0..10)) {
        (Some(before), 0..=1) => return world.ask(at, before),
        (Some(before), 2) => world.seen.calls[before].identity.clone(),
        _ => {
            let count = world.seen.calls.len();
            let caller = ["ann", "bob"][count % 2].to_owned();
            let id = format!("{}", count / 2);
            let has_one = world.random.gen_ratio(2, 3);
            has_one.then_some(Identity { caller, id })
        }
    };
    let count = world.seen.calls.len();
    let text = commands::call(&mut world.random, count, identity.is_none());
    let call = world.seen.add_call(generation, &node, identity, text);
    world.ask(at, call);
}

fn begin(world: &mut World, at: usize) {
    if world.begin(at) && world.random.gen_ratio(1, 3) {
        world.land(world.flights() - 1);
    }
}

fn read(world: &mut World, at: usize) {
    let followed = world.processes[at].followed();
    if let Some(member) = followed.choose(&mut world.random).copied() {
        let most = [1, 1, 2, 5, 100][world.random.gen_range(0..5)];
        world.read(at, member, most);
    }
}

fn fly(world: &mut World) {
    if world.flights() > 0 {
        let flight = world.random.gen_range(0..world.flights());
        match world.random.gen_ratio(1, 5) {
            true => world.lose_reply(flight),
            false => world.land(flight),
        }
    }
}

/// Brings everything everywhere, until nothing moves.
pub fn settle(world: &mut World) {
    for _ in 0..10_000 {
        if settle_once(world) {
            continue;
        }
        let before = world.processes.len();
        remove_those_behind(world);
        if world.processes.len() == before {
            return;
        }
    }
    panic!("it never ends");
}

/// A process that has less of its own row than there is was doubled, and would be fenced.
fn remove_those_behind(world: &mut World) {
    let rows = &world.rows;
    world.processes.retain_mut(|process| {
        let own = process.own_row();
        own.is_none_or(|(row, cells)| cells == rows.get(&row).len() as u64)
    });
}

fn settle_once(world: &mut World) -> bool {
    let mut has_moved = false;
    for node in world.nodes() {
        let mut running = world.processes.iter();
        if running.all(|it| it.node.as_ref() != Some(&node)) {
            let foundings = world.rows.get(&RowName::founding()).len();
            world.start(Some(&node), foundings, usize::MAX);
            has_moved = true;
        }
    }
    while world.flights() > 0 {
        world.land(0);
        has_moved = true;
    }
    let names: Vec<usize> = world.processes.iter().map(|it| it.name).collect();
    for name in names {
        has_moved |= move_on(world, name);
    }
    has_moved
}

/// A process looks, reads and sets, as far as it comes.
fn move_on(world: &mut World, name: usize) -> bool {
    let find = |world: &World| world.processes.iter().position(|it| it.name == name);
    let Some(at) = find(world) else {
        return true;
    };
    if world.look(at) {
        return true;
    }
    let generation = world.processes[at].held.generation().number;
    let mut has_moved = world.read_foundings(at, usize::MAX) > 0;
    for member in world.processes[at].followed() {
        has_moved |= world.read(at, member, usize::MAX) > 0;
    }
    if world.begin(at) {
        world.land(world.flights() - 1);
        return true;
    }
    let stands = find(world).map(|at| world.processes[at].held.generation().number);
    has_moved || stands != Some(generation)
}

/// Each call that has an identity is asked once more, of a process of its node.
pub fn ask_all_again(world: &mut World) {
    let mut again = Vec::new();
    for same in world.seen.identities() {
        let is_set = |call: &&usize| world.seen.calls[**call].stamp.is_some();
        again.push(*same.iter().find(is_set).unwrap_or(&same[0]));
    }
    again.sort_unstable();
    for call in again {
        let node = world.seen.calls[call].node.clone();
        let mut running = world.processes.iter();
        let at = running.position(|it| it.node.as_ref() == Some(&node));
        if let Some(at) = at {
            world.ask(at, call);
        }
    }
}
