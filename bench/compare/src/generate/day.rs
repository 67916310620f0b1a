//! Random commands over few names, so that they meet each other, with other events and bad lines between.

use super::builder::{self, Builder};
use super::hostile;
use crate::case::Case;
use crate::random::Random;
use crate::rows::{Group, Row};
use crate::tree::{self, Tree};

/// Users, roles, sessions and sets share these, so that a mix-up of kinds shows, and their order by bytes differs from that
/// of other orders.
const NAMES: [&str; 14] = [
    "ann",
    "bob",
    "Bob",
    "Z",
    "a",
    "b",
    "aa",
    "_",
    "-",
    ".",
    "0",
    "10",
    "a.b",
    "n123456789012345678901234567890123456789012345678901234567890123",
];

const NOBODY: &str = "nobody";

const GROWING: [&str; 9] = [
    "AddUser",
    "AddRole",
    "AssignUser",
    "AssignUser",
    "CreateSession",
    "CreateSession",
    "AddActiveRole",
    "CreateSsdSet",
    "CreateDsdSet",
];

/// A founding's version and, from version 2 on, its kind of hierarchy.
const VERSIONS: [&str; 4] = [
    "version = 1",
    "version = 2\nhierarchy = \"general\"",
    "version = 2\nhierarchy = \"limited\"",
    "version = 2\nhierarchy = \"limited\"",
];

/// How many lines come between two surveys.
const SURVEYED: usize = 60;

/// What a schedule has much of.
#[derive(Clone, Copy)]
pub struct Habits {
    /// The weight of each group of commands, in the order of `Group`.
    weights: [usize; 5],
    /// Percent of the lines that are bad.
    hostile: usize,
    /// Percent of the lines that are written with blanks, escapes or another order of keys.
    pub varied: usize,
}

pub const HABITS: [Habits; 7] = [
    Habits { weights: [10, 4, 10, 10, 8], hostile: 3, varied: 10 },
    Habits { weights: [10, 20, 10, 0, 10], hostile: 1, varied: 5 },
    Habits { weights: [10, 4, 10, 25, 5], hostile: 1, varied: 5 },
    Habits { weights: [10, 6, 10, 20, 2], hostile: 1, varied: 5 },
    Habits { weights: [10, 3, 30, 6, 6], hostile: 1, varied: 5 },
    Habits { weights: [10, 6, 10, 6, 30], hostile: 1, varied: 5 },
    Habits { weights: [10, 5, 10, 10, 8], hostile: 60, varied: 30 },
];

pub struct Day<'a> {
    pub random: &'a mut Random,
    rows: &'a [&'static Row],
    users: Vec<&'static str>,
    roles: Vec<&'static str>,
    sessions: Vec<&'static str>,
    sets: Vec<&'static str>,
    operations: Vec<&'static str>,
    objects: Vec<&'static str>,
}

const ALL_BAD: Habits = Habits { weights: [10, 5, 10, 10, 8], hostile: 100, varied: 0 };

pub fn case(random: &mut Random, rows: &[&'static Row], number: usize) -> Case {
    let (habits, length) = (random.pick(&HABITS), random.between(300, 3_000));
    case_with(random, rows, &habits, length, format!("day-{number:05}"))
}

/// A schedule of bad lines alone, but for those that a change of some bytes left good.
pub fn bad_case(random: &mut Random, rows: &[&'static Row], length: usize, number: usize) -> Case {
    case_with(random, rows, &ALL_BAD, length, format!("bad-{number:02}"))
}

fn case_with(random: &mut Random, rows: &[&'static Row], habits: &Habits, length: usize, name: String) -> Case {
    let mut day = Day::new(random, rows);
    let founding = day.random.chance(70).then(|| day.founding("members = 1"));
    if founding.is_none() {
        (day.operations, day.objects) = (vec!["approve", "pay", "read"], vec!["invoice", "ledger"]);
    }
    let schedule = day.schedule(habits, length);
    Case::new(name, founding.map(String::into_bytes), schedule)
}

impl<'a> Day<'a> {
    /// A day with few names of each kind.
    pub fn new(random: &'a mut Random, rows: &'a [&'static Row]) -> Day<'a> {
        let mut names = |most: usize| -> Vec<&'static str> {
            let mut names = NAMES;
            random.shuffle(&mut names);
            names[..random.between(1, most)].to_vec()
        };
        let (users, sessions, sets) = (names(5), names(6), names(2));
        let (roles, operations, objects) = (names(7), names(3), names(3));
        Day { random, rows, users, roles, sessions, sets, operations, objects }
    }

    /// A founding of either version with the operations and objects of the day, about half of their pairs as permissions, and these lines on
    /// its group.
    pub fn founding(&mut self, group: &str) -> String {
        let Day { random, operations, objects, .. } = self;
        let pairs = operations.iter().flat_map(|operation| objects.iter().map(move |object| [*operation, *object]));
        let permissions: Vec<[&str; 2]> = pairs.filter(|_| random.chance(60)).collect();
        let version = random.pick(&VERSIONS);
        format!(
            "{version}\n{group}\noperations = {operations:?}\nobjects = {objects:?}\npermissions = {permissions:?}\n"
        )
    }

    fn schedule(&mut self, habits: &Habits, length: usize) -> Vec<u8> {
        let mut builder = Builder::new();
        if self.random.chance(75) {
            self.stock(&mut builder);
        }
        for number in 0..length {
            if number % SURVEYED == SURVEYED - 1 {
                self.survey(&mut builder);
            }
            if self.random.chance(habits.hostile) {
                let caller = self.random.next() as u32;
                let event = if self.random.chance(20) {
                    let count = self.random.between(0, 3);
                    builder::batch(1, caller, 0, self.commands(habits, count))
                } else {
                    builder::submit(1, caller, 0, self.command(habits))
                };
                builder.line(hostile::line(self.random, event));
            } else {
                let event = self.event(habits, &mut builder);
                let varied = self.random.chance(habits.varied);
                builder.line(if varied { event.varied(self.random) } else { event.compact() });
            }
        }
        builder.schedule
    }

    /// A policy to begin with.
    fn stock(&mut self, builder: &mut Builder) {
        let (users, roles) = (self.users.clone(), self.roles.clone());
        users.iter().for_each(|user| builder.command("AddUser", &[("user", tree::text(user))]));
        roles.iter().for_each(|role| builder.command("AddRole", &[("role", tree::text(role))]));
        for (name, count) in [("AddInheritance", 6), ("GrantPermission", 6), ("AssignUser", 5), ("CreateSession", 4)] {
            for _ in 0..count {
                self.any(name, builder);
            }
        }
    }

    /// Asks for what the policy has become.
    fn survey(&mut self, builder: &mut Builder) {
        for session in self.sessions.clone() {
            let (operation, object) = (self.random.pick(&self.operations), self.random.pick(&self.objects));
            let fields = [("session", session), ("operation", operation), ("object", object)];
            builder.command("CheckAccess", &fields.map(|(key, value)| (key, tree::text(value))));
        }
        if self.rows.iter().any(|row| row.group == Group::Review) {
            for review in ["SessionRoles", "AuthorizedRoles", "RolePermissions", "UserPermissions", "SsdRoleSetRoles"] {
                self.any(review, builder);
            }
        }
    }

    /// A command of this name, with any fields.
    fn any(&mut self, name: &str, builder: &mut Builder) {
        let row = self.rows.iter().find(|row| row.name == name).expect("a row of the name");
        let fields: Vec<(&str, Tree)> = row.fields.iter().map(|field| (*field, self.value(row, field))).collect();
        builder.command(row.name, &fields);
    }

    /// Submits and deliveries in about equal parts, and few events that are refused.
    fn event(&mut self, habits: &Habits, builder: &mut Builder) -> Tree {
        match self.random.below(100) {
            0 => builder::receive(self.number(), self.number(), self.number()),
            1 => builder::deliver(self.number()),
            2 => builder::submit(self.number(), 0, 0, self.command(habits)),
            3 => builder::submit(1, self.number(), self.number(), self.command(habits)),
            4 => {
                let (serial, count) = builder::bad_batch(self.random, 0);
                builder::batch(self.random.pick(&[1, 1, 1, 9]), self.number(), serial, self.commands(habits, count))
            }
            5..57 => builder::deliver(1),
            57..60 => {
                let (caller, count) = (Builder::any_caller(self.random), builder::any_count(self.random));
                builder.next_batch(caller, self.commands(habits, count))
            }
            _ => {
                let (caller, command) = (Builder::any_caller(self.random), self.command(habits));
                builder.next_submit(caller, command)
            }
        }
    }

    pub fn commands(&mut self, habits: &Habits, count: usize) -> Vec<Tree> {
        (0..count).map(|_| self.command(habits)).collect()
    }

    /// A member, a caller, a serial or a message, most often not the one that there is.
    fn number(&mut self) -> u32 {
        self.random.pick(&[0, 1, 1, 2, 9, u32::MAX])
    }

    pub fn command(&mut self, habits: &Habits) -> Tree {
        let row = self.row(habits);
        let fields: Vec<(&str, Tree)> = row.fields.iter().map(|field| (*field, self.value(row, field))).collect();
        builder::command(row.name, &fields)
    }

    /// What adds comes more often than what deletes, so that there is something to deny, to list and to delete.
    fn row(&mut self, habits: &Habits) -> &'static Row {
        if self.random.chance(35) {
            let name = self.random.pick(&GROWING);
            return self.rows.iter().find(|row| row.name == name).expect("a row of the name");
        }
        let group = self.group(habits);
        let rows: Vec<&'static Row> = self.rows.iter().copied().filter(|row| row.group == group).collect();
        let row = self.random.pick(&rows);
        let is_taken_back = (row.name.starts_with("De") || row.name.starts_with("Drop")) && self.random.chance(80);
        if is_taken_back { self.random.pick(&rows) } else { row }
    }

    fn group(&mut self, habits: &Habits) -> Group {
        let groups = [Group::Core, Group::Hierarchy, Group::Session, Group::Separation, Group::Review];
        let weighted = groups.iter().zip(habits.weights);
        let present = weighted.filter(|(group, _)| self.rows.iter().any(|row| row.group == **group));
        let choices: Vec<Group> = present.flat_map(|(group, weight)| std::iter::repeat_n(*group, weight)).collect();
        self.random.pick(&choices)
    }

    fn value(&mut self, row: &Row, field: &str) -> Tree {
        match field {
            "roles" => {
                let counts = if row.group == Group::Separation { [0, 1, 2, 3, 3, 4, 5] } else { [0, 1, 1, 2, 2, 3, 4] };
                let count = self.random.pick(&counts);
                Tree::List((0..count).map(|_| tree::text(self.name("role"))).collect())
            }
            "n" => tree::number(self.random.pick(&[0, 1, 2, 2, 2, 2, 2, 3, 3, 3, 4, u32::MAX])),
            _ => tree::text(self.name(field)),
        }
    }

    fn name(&mut self, field: &str) -> &'static str {
        let names = match field {
            "user" => &self.users,
            "session" => &self.sessions,
            "set" => &self.sets,
            "operation" => &self.operations,
            "object" => &self.objects,
            _ => &self.roles,
        };
        if self.random.chance(7) { NOBODY } else { self.random.pick(names) }
    }
}
