//! Schedules that reach a limit: of users, roles, sessions and sets, of the clock, and of what a member sends.
//!
//! Each also asks, at the limit, for what an earlier precondition denies, and goes below the limit and back to it.

use super::builder::{self, Builder};
use super::model::Model;
use crate::case::Case;
use crate::random::Random;
use crate::tree::{self, Tree};

const VOCABULARY: &str = "operations = []\nobjects = []\npermissions = []\n";

pub fn cases(random: &mut Random) -> Vec<Case> {
    let named = |name: &str, founding, schedule| Case::new(format!("limit-{name}"), founding, schedule);
    let mut cases = vec![
        named("roles", None, all_roles()),
        named("roles-limited", Some(limited_founding()), all_roles()),
        named("static-sets", None, sets("Ssd")),
        named("dynamic-sets", None, sets("Dsd")),
        named("users", None, users()),
        users_at_two_members(),
        acknowledgements_at_a_limit("clock", "clock = 9007199254740988"),
        acknowledgements_at_a_limit("sent", "sent_limit = 2"),
        named("sessions", None, sessions()),
        batches_at_two_members("", ""),
        batches_at_two_members("-clock", "clock = 9007199254740986"),
        batches_at_two_members("-sent", "sent_limit = 4"),
    ];
    for (number, left) in [0, 1, 20].into_iter().enumerate() {
        let clock = 9_007_199_254_740_991u64 - left;
        let founding = format!("version = 1\nmembers = 1\nclock = {clock}\n{VOCABULARY}");
        cases.push(named(&format!("clock-{number}"), Some(founding.into_bytes()), submits(random)));
    }
    for limit in [1, 2, 20] {
        let founding = format!("version = 1\nmembers = 1\nsent_limit = {limit}\n{VOCABULARY}");
        cases.push(named(&format!("sent-{limit}"), Some(founding.into_bytes()), submits(random)));
    }
    let both = format!("version = 1\nmembers = 1\nclock = 9007199254740981\nsent_limit = 10\n{VOCABULARY}");
    cases.push(named("clock-and-sent", Some(both.into_bytes()), submits(random)));
    cases
}

fn limited_founding() -> Vec<u8> {
    format!("version = 2\nhierarchy = \"limited\"\nmembers = 1\n{VOCABULARY}").into_bytes()
}

fn field(key: &'static str, name: &str) -> (&'static str, Tree) {
    (key, tree::text(name))
}

fn roles(roles: &[&str]) -> (&'static str, Tree) {
    ("roles", Tree::List(roles.iter().map(|role| tree::text(role)).collect()))
}

fn users() -> Vec<u8> {
    let mut builder = Builder::new();
    for user in 0..=4_096 {
        builder.command("AddUser", &[field("user", &format!("u{user}"))]);
    }
    for (name, user) in
        [("AddUser", "u5"), ("DeleteUser", "u5"), ("AddUser", "u5"), ("AddUser", "v"), ("AddUser", "u5")]
    {
        builder.command(name, &[field("user", user)]);
    }
    builder.schedule
}

/// Member 2 takes each command and member 1 what it acknowledges of them, and then each of them delivers all commands: both deny
/// the same one, and then nothing is left.
fn users_at_two_members() -> Case {
    const USERS: u32 = 4_097;
    let mut builder = Builder::new();
    let mut model = Model::new(2, 0, 65_536);
    for user in 1..=USERS {
        let event = builder.next_submit(0, builder::command("AddUser", &[field("user", &format!("u{user}"))]));
        builder.line(event.compact());
        model.submit(1, 0, 1);
    }
    for (at, from) in [(2, 1), (1, 2)] {
        for _ in 0..model.sent(from) {
            let number = model.receive(at, from);
            builder.line(builder::receive(at, from, number).compact());
        }
    }
    for at in [1, 2] {
        for _ in 0..=USERS {
            builder.line(builder::deliver(at).compact());
        }
    }
    let founding = format!("version = 1\nmembers = 2\n{VOCABULARY}");
    Case::of_group("limit-users-at-two-members".to_owned(), founding.into_bytes(), builder.schedule)
}

/// Two members that submit twice each and take what the other one sent: the first command needs no acknowledgement of member 2 and one
/// of member 1, and so the second ones.
fn acknowledgements_at_a_limit(name: &str, limit: &str) -> Case {
    let mut builder = Builder::new();
    for (at, serial) in [(1, 0), (1, 1), (2, 0), (2, 1)] {
        let command = builder::command("AddUser", &[field("user", &format!("u{at}"))]);
        builder.line(builder::submit(at, 0, serial, command).compact());
    }
    for (at, from) in [(2, 1), (1, 2)] {
        for number in [1, 2, 2, 3] {
            builder.line(builder::receive(at, from, number).compact());
        }
    }
    for at in [1, 1, 1, 2, 2, 2] {
        builder.line(builder::deliver(at).compact());
    }
    let founding = format!("version = 1\nmembers = 2\n{limit}\n{VOCABULARY}");
    Case::of_group(format!("limit-acknowledgements-{name}"), founding.into_bytes(), builder.schedule)
}

/// Batches of each length about the limits and of serials about the last one, at two members that take what the other one sent, and
/// deliver all that they can. Where a clock or a sent list comes to its end, bad batches are named before it.
fn batches_at_two_members(name: &str, limit: &str) -> Case {
    const LAST: u32 = u32::MAX;
    let most = builder::MOST_COMMANDS;
    let mut lines = Builder::new();
    let mut next = 0;
    for count in [0, 1, most + 1, 2, most, most - 1, most + 2, 0] {
        for at in [1, 2] {
            lines.line(builder::batch(at, 0, next, adding_users(count)).compact());
        }
        next += if (1..=most).contains(&count) { count as u32 } else { 0 };
        // Out of turn, with a last serial that is the greatest, or too great.
        for (serial, count) in [(LAST, 1), (LAST, 2), (LAST - 63, most), (LAST - 62, most), (next + 1, 2)] {
            lines.line(builder::batch(1, 0, serial, adding_users(count)).compact());
        }
        lines.line(builder::batch(3, 0, next, adding_users(count)).compact());
    }
    for number in 1..=6 {
        for (at, from) in [(1, 2), (2, 1)] {
            lines.line(builder::receive(at, from, number).compact());
        }
    }
    for at in [1, 2] {
        for _ in 0..=2 * next {
            lines.line(builder::deliver(at).compact());
        }
    }
    let founding = format!("version = 1\nmembers = 2\n{limit}\n{VOCABULARY}");
    Case::of_group(format!("limit-batches{name}"), founding.into_bytes(), lines.schedule)
}

fn adding_users(count: usize) -> Vec<Tree> {
    let user = |number: usize| builder::command("AddUser", &[field("user", &format!("u{number}"))]);
    (0..count).map(user).collect()
}

fn all_roles() -> Vec<u8> {
    let mut builder = Builder::new();
    for role in 0..1_023 {
        builder.command("AddRole", &[field("role", &format!("r{role}"))]);
    }
    let pair = |ascendant, descendant| [field("ascendant", ascendant), field("descendant", descendant)];
    builder.command("AddAscendant", &pair("top", "r0"));
    builder.command("AddRole", &[field("role", "x")]);
    builder.command("AddRole", &[field("role", "r0")]);
    for (name, fields) in [
        ("AddAscendant", pair("x", "r0")),
        ("AddAscendant", pair("x", "y")),
        ("AddAscendant", pair("r1", "r0")),
        ("AddDescendant", pair("r0", "x")),
        ("AddDescendant", pair("y", "x")),
        ("AddDescendant", pair("r0", "r1")),
    ] {
        builder.command(name, &fields);
    }
    builder.command("DeleteRole", &[field("role", "r7")]);
    builder.command("AddDescendant", &pair("r0", "x"));
    builder.command("AddDescendant", &pair("r0", "y"));
    builder.command("AddRole", &[field("role", "r7")]);
    builder.schedule
}

fn sessions() -> Vec<u8> {
    let mut builder = Builder::new();
    builder.command("AddUser", &[field("user", "u")]);
    for role in ["a", "b", "c"] {
        builder.command("AddRole", &[field("role", role)]);
    }
    for role in ["a", "b"] {
        builder.command("AssignUser", &[field("user", "u"), field("role", role)]);
    }
    builder.command("CreateDsdSet", &[field("set", "d"), roles(&["a", "b"]), ("n", tree::number(2))]);
    let create = |builder: &mut Builder, session: &str, active: &[&str]| {
        builder.command("CreateSession", &[field("user", "u"), field("session", session), roles(active)]);
    };
    for session in 0..8_193 {
        create(&mut builder, &session.to_string(), &[]);
    }
    for (session, active) in [("0", &["a"][..]), ("x", &["c"]), ("x", &["a", "b"]), ("x", &["a"])] {
        create(&mut builder, session, active);
    }
    builder.command("DeleteSession", &[field("user", "u"), field("session", "17")]);
    create(&mut builder, "x", &["a"]);
    create(&mut builder, "y", &["a"]);
    builder.command("DeleteUser", &[field("user", "u")]);
    create(&mut builder, "y", &[]);
    builder.schedule
}

fn sets(kind: &str) -> Vec<u8> {
    let mut builder = Builder::new();
    builder.command("AddUser", &[field("user", "u")]);
    for role in ["a", "b", "c", "e"] {
        builder.command("AddRole", &[field("role", role)]);
    }
    for role in ["a", "e"] {
        builder.command("AssignUser", &[field("user", "u"), field("role", role)]);
    }
    builder.command("CreateSession", &[field("user", "u"), field("session", "s"), roles(&["a", "e"])]);
    let create = |builder: &mut Builder, set: &str, members: &[&str], n: u32| {
        let fields = [field("set", set), roles(members), ("n", tree::number(n))];
        builder.command(&format!("Create{kind}Set"), &fields);
    };
    for set in 0..257 {
        create(&mut builder, &format!("d{set}"), &["a", "b", "c"], 2);
    }
    for (set, members, n) in [
        ("d0", &["a", "b"][..], 2),
        ("x", &["a", "z"], 2),
        ("x", &["a"], 2),
        ("x", &["a", "e"], 2),
        ("x", &["b", "c"], 2),
    ] {
        create(&mut builder, set, members, n);
    }
    for set in ["d9", "d10"] {
        builder.command(&format!("Delete{kind}Set"), &[field("set", set)]);
    }
    create(&mut builder, "x", &["a", "c"], 2);
    create(&mut builder, "y", &["a", "c", "e"], 3);
    create(&mut builder, "z", &["a", "c"], 2);
    change_members(&mut builder, kind);
    builder.schedule
}

/// Adds what would break a set, takes out what has to stay, and lowers a number too far. The user and its session have the
/// roles a and e. The set x is of a and c with the number 2, the set y of a, c and e with the number 3.
fn change_members(builder: &mut Builder, kind: &str) {
    for (change, role) in
        [("Add", "e"), ("Add", "nobody"), ("Delete", "c"), ("Add", "b"), ("Delete", "c"), ("Delete", "c")]
    {
        builder.command(&format!("{change}{kind}RoleMember"), &[field("set", "x"), field("role", role)]);
    }
    for n in [2, 1, 3, 4] {
        builder.command(&format!("Set{kind}SetCardinality"), &[field("set", "y"), ("n", tree::number(n))]);
    }
}

/// Submits of several callers, in turn and out of turn, with deliveries between.
fn submits(random: &mut Random) -> Vec<u8> {
    let mut builder = Builder::new();
    for number in 0..60 {
        let user = field("user", &format!("u{}", random.below(10)));
        let name = if random.chance(70) { "AddUser" } else { "DeleteUser" };
        let caller = random.below(3) as u32;
        let command = super::builder::command(name, &[user]);
        let event = match number % 7 {
            3 => super::builder::submit(1, caller, 3, command),
            4 => super::builder::deliver(1),
            _ => builder.next_submit(caller, command),
        };
        builder.line(event.compact());
    }
    builder.schedule
}
