//! The inputs that are timed.

use crate::schedule::Schedule;

/// A founding and a schedule that is played on it.
pub struct Work {
    pub name: &'static str,
    /// None is the sample founding.
    pub founding: Option<String>,
    pub schedule: Schedule,
}

pub struct Sizes {
    pub refused_lines: usize,
    pub days: usize,
    pub group_days: usize,
    pub users: usize,
    pub grants: usize,
    pub checks: usize,
    pub hierarchy_changes: usize,
    pub reviews: usize,
    pub permission_reviews: usize,
}

impl Sizes {
    /// What a world takes: at most 65,536 messages of each member.
    pub const FULL: Sizes = Sizes {
        refused_lines: 500_000,
        days: 2_000,
        group_days: 500,
        users: 1_000,
        grants: 3_000,
        checks: 50_000,
        hierarchy_changes: 2_000,
        reviews: 5_000,
        permission_reviews: 200,
    };

    pub const SMALL: Sizes = Sizes {
        refused_lines: 5_000,
        days: 20,
        group_days: 5,
        users: 50,
        grants: 150,
        checks: 500,
        hierarchy_changes: 20,
        reviews: 50,
        permission_reviews: 2,
    };
}

pub fn all(sizes: &Sizes, with_reviews: bool) -> Vec<Work> {
    let mut works = vec![
        Work { name: "lines refused", founding: None, schedule: refused_lines(sizes.refused_lines) },
        Work { name: "ordinary days", founding: None, schedule: ordinary_days(sizes.days, 1) },
        on_large_policy(sizes, "a large policy made", |_| {}),
        on_large_policy(sizes, "a large policy made, and checks", |schedule| checks(schedule, sizes)),
        on_large_policy(sizes, "a large policy made, and changes of its hierarchy", |schedule| {
            hierarchy_changes(schedule, sizes.hierarchy_changes);
        }),
    ];
    if with_reviews {
        works.push(on_large_policy(sizes, "a large policy made, and short reviews", |schedule| {
            short_reviews(schedule, sizes);
        }));
        works.push(on_large_policy(
            sizes,
            "a large policy made, and UserPermissions of a user of 100 roles",
            |schedule| {
                for _ in 0..sizes.permission_reviews {
                    schedule.command("UserPermissions", &[("user", AUDITOR)]);
                }
            },
        ));
    }
    works.push(Work {
        name: "ordinary days at three members",
        founding: Some(OF_THREE.to_owned()),
        schedule: ordinary_days(sizes.group_days, 3),
    });
    works
}

/// The sample founding with three members.
const OF_THREE: &str = r#"version = 1
members = 3
operations = ["approve", "pay", "read"]
objects = ["invoice", "ledger"]
permissions = [["approve", "invoice"], ["pay", "invoice"], ["read", "ledger"]]
"#;

/// Submits whose command has a name that is none.
fn refused_lines(count: usize) -> Schedule {
    let mut schedule = Schedule::default();
    for _ in 0..count {
        schedule.line(
            "{\"do\":\"submit\",\"at\":1,\"caller\":0,\"serial\":0,\"command\":{\"name\":\"DropUser\",\"user\":\"anna\"}}",
        );
    }
    schedule
}

/// Each day somebody is hired, works in a session, is denied, and leaves: 19 commands.
fn ordinary_days(count: usize, members: usize) -> Schedule {
    let mut schedule = Schedule::at_members(members);
    for role in ["clerk", "payer", "boss"] {
        schedule.command("AddRole", &[("role", role)]);
    }
    schedule.command("AddInheritance", &[("ascendant", "boss"), ("descendant", "clerk")]);
    for (operation, object, role) in
        [("read", "ledger", "clerk"), ("pay", "invoice", "payer"), ("approve", "invoice", "boss")]
    {
        schedule.command("GrantPermission", &[("operation", operation), ("object", object), ("role", role)]);
    }
    for day in 0..count {
        ordinary_day(&mut schedule, &format!("user{day}"), &format!("session{day}"));
    }
    schedule
}

fn ordinary_day(schedule: &mut Schedule, user: &str, session: &str) {
    let in_session = [("user", user), ("session", session)];
    let check = |schedule: &mut Schedule, operation, object| {
        schedule.command("CheckAccess", &[("session", session), ("operation", operation), ("object", object)]);
    };
    schedule.command("AddUser", &[("user", user)]);
    schedule.command("AssignUser", &[("user", user), ("role", "boss")]);
    schedule.command("AssignUser", &[("user", user), ("role", "boss")]);
    schedule.create_session(user, session, &["boss"]);
    for _ in 0..3 {
        check(schedule, "read", "ledger");
        check(schedule, "pay", "invoice");
    }
    schedule.command("AssignUser", &[("user", user), ("role", "payer")]);
    schedule.command("AddActiveRole", &[in_session[0], in_session[1], ("role", "payer")]);
    check(schedule, "pay", "invoice");
    check(schedule, "fly", "moon");
    schedule.command("DropActiveRole", &[in_session[0], in_session[1], ("role", "payer")]);
    check(schedule, "pay", "invoice");
    schedule.command("DeassignUser", &[("user", user), ("role", "payer")]);
    schedule.command("DeleteSession", &in_session);
    schedule.command("DeleteUser", &[("user", user)]);
}

const OPERATIONS: usize = 20;
const OBJECTS: usize = 100;
const AUDITOR: &str = "auditor";

/// How many roles each level has, the most senior one first: 100 in all.
const LEVELS: [usize; 6] = [1, 3, 8, 18, 30, 40];

/// Users of two roles and one session each, 100 roles in 6 levels, 2,000 permissions and grants of them, and one more user who
/// has each role. At their full sizes there are 1,000 users and 3,000 grants.
fn on_large_policy(sizes: &Sizes, name: &'static str, more: impl Fn(&mut Schedule)) -> Work {
    let numbered = |word: &str, count: usize| (0..count).map(|number| format!("{word}{number}")).collect::<Vec<_>>();
    let (operations, objects) = (numbered("operation", OPERATIONS), numbered("object", OBJECTS));
    let pairs = operations.iter().flat_map(|operation| objects.iter().map(move |object| [operation, object]));
    let permissions: Vec<[&String; 2]> = pairs.collect();
    let founding = format!(
        "version = 1\nmembers = 1\noperations = {operations:?}\nobjects = {objects:?}\npermissions = {permissions:?}\n"
    );
    let mut schedule = Schedule::default();
    make_roles(&mut schedule);
    for grant in 0..sizes.grants {
        let [operation, object] = permissions[grant % permissions.len()];
        let role = format!("role{}", (grant * 7 + grant / permissions.len()) % 100);
        schedule.command("GrantPermission", &[("operation", operation), ("object", object), ("role", &role)]);
    }
    make_users(&mut schedule, sizes.users);
    more(&mut schedule);
    Work { name, founding: Some(founding), schedule }
}

/// Each role below the first level has one or two ascendants in the level above it.
fn make_roles(schedule: &mut Schedule) {
    for role in 0..100 {
        schedule.command("AddRole", &[("role", &format!("role{role}"))]);
    }
    for (ascendant, descendant) in declared_pairs() {
        let (ascendant, descendant) = (format!("role{ascendant}"), format!("role{descendant}"));
        schedule.command("AddInheritance", &[("ascendant", &ascendant), ("descendant", &descendant)]);
    }
}

fn declared_pairs() -> Vec<(usize, usize)> {
    let mut pairs = Vec::new();
    let mut first = 0;
    for (above, level) in LEVELS.iter().zip(&LEVELS[1..]) {
        for place in 0..*level {
            let descendant = first + above + place;
            pairs.push((first + place % above, descendant));
            if (place + 1) % above != place % above {
                pairs.push((first + (place + 1) % above, descendant));
            }
        }
        first += above;
    }
    pairs
}

fn make_users(schedule: &mut Schedule, users: usize) {
    for number in 0..users {
        let (user, session) = (format!("user{number}"), format!("session{number}"));
        let roles = [number % 100, (number * 3 + 51) % 100].map(|role| format!("role{role}"));
        schedule.command("AddUser", &[("user", &user)]);
        for role in &roles {
            schedule.command("AssignUser", &[("user", &user), ("role", role)]);
        }
        schedule.create_session(&user, &session, &[&roles[0], &roles[1]]);
    }
    schedule.command("AddUser", &[("user", AUDITOR)]);
    for role in 0..100 {
        schedule.command("AssignUser", &[("user", AUDITOR), ("role", &format!("role{role}"))]);
    }
}

fn checks(schedule: &mut Schedule, sizes: &Sizes) {
    for number in 0..sizes.checks {
        let session = format!("session{}", number * 17 % sizes.users);
        let operation = format!("operation{}", number % OPERATIONS);
        let object = format!("object{}", number * 13 % OBJECTS);
        schedule.command("CheckAccess", &[("session", &session), ("operation", &operation), ("object", &object)]);
    }
}

/// Deletes a declared pair and adds it again.
fn hierarchy_changes(schedule: &mut Schedule, count: usize) {
    let pairs = declared_pairs();
    for number in 0..count / 2 {
        let (ascendant, descendant) = pairs[number * 11 % pairs.len()];
        let (ascendant, descendant) = (format!("role{ascendant}"), format!("role{descendant}"));
        for name in ["DeleteInheritance", "AddInheritance"] {
            schedule.command(name, &[("ascendant", &ascendant), ("descendant", &descendant)]);
        }
    }
}

fn short_reviews(schedule: &mut Schedule, sizes: &Sizes) {
    for number in 0..sizes.reviews {
        let (user, role) = (format!("user{}", number * 17 % sizes.users), format!("role{}", number % 100));
        let (session, object) =
            (format!("session{}", number * 17 % sizes.users), format!("object{}", number * 13 % OBJECTS));
        match number % 6 {
            0 => schedule.command("AssignedUsers", &[("role", &role)]),
            1 => schedule.command("AssignedRoles", &[("user", &user)]),
            2 => schedule.command("AuthorizedRoles", &[("user", &user)]),
            3 => schedule.command("SessionRoles", &[("session", &session)]),
            4 => schedule.command("RoleOperationsOnObject", &[("role", &role), ("object", &object)]),
            _ => schedule.command("UserOperationsOnObject", &[("user", &user), ("object", &object)]),
        }
    }
}
