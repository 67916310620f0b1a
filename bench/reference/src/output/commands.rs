//! The text of a command: its name, and then its fields in the order in which they are read.

use crate::command::{Change, Command, Review, Separation};
use crate::name::Name;
use std::io::Write;

enum Value<'a> {
    Name(&'a Name),
    /// Told sorted, and each once.
    Names(&'a [Name]),
    Number(u32),
}

use Value::{Names, Number};

type Field<'a> = (&'static str, Value<'a>);

pub fn write_command(text: &mut Vec<u8>, command: &Command) {
    let (word, fields) = parts_of(command);
    put!(text, "{{\"name\":\"{word}\"");
    for (key, value) in fields {
        put!(text, ",\"{key}\":");
        match value {
            Value::Name(name) => super::write_name(text, name),
            Names(names) => {
                let mut names: Vec<&Name> = names.iter().collect();
                names.sort_unstable();
                names.dedup();
                super::write_list(text, &names, |text, name| super::write_name(text, name));
            }
            Number(number) => put!(text, "{number}"),
        }
    }
    text.push(b'}');
}

fn parts_of(command: &Command) -> (String, Vec<Field<'_>>) {
    match command {
        Command::Change(change) => parts_of_change(change),
        Command::CheckAccess { session, operation, object } => {
            ("CheckAccess".into(), vec![of("session", session), of("operation", operation), of("object", object)])
        }
        Command::Review(review) => parts_of_review(review),
    }
}

fn of<'a>(key: &'static str, name: &'a Name) -> Field<'a> {
    (key, Value::Name(name))
}

/// The word of a command about sets, which has the kind in it: `Create`, static, `Set` is `CreateSsdSet`.
fn kind_word(before: &str, kind: Separation, after: &str) -> String {
    let kind = match kind {
        Separation::Static => "Ssd",
        Separation::Dynamic => "Dsd",
    };
    format!("{before}{kind}{after}")
}

fn parts_of_change(change: &Change) -> (String, Vec<Field<'_>>) {
    use Change::*;
    match change {
        AddUser { user } => ("AddUser".into(), vec![of("user", user)]),
        DeleteUser { user } => ("DeleteUser".into(), vec![of("user", user)]),
        AddRole { role } => ("AddRole".into(), vec![of("role", role)]),
        DeleteRole { role } => ("DeleteRole".into(), vec![of("role", role)]),
        AssignUser { user, role } => ("AssignUser".into(), vec![of("user", user), of("role", role)]),
        DeassignUser { user, role } => ("DeassignUser".into(), vec![of("user", user), of("role", role)]),
        GrantPermission { operation, object, role } => {
            ("GrantPermission".into(), vec![of("operation", operation), of("object", object), of("role", role)])
        }
        RevokePermission { operation, object, role } => {
            ("RevokePermission".into(), vec![of("operation", operation), of("object", object), of("role", role)])
        }
        AddInheritance { ascendant, descendant } => ("AddInheritance".into(), pair(ascendant, descendant)),
        DeleteInheritance { ascendant, descendant } => ("DeleteInheritance".into(), pair(ascendant, descendant)),
        AddAscendant { ascendant, descendant } => ("AddAscendant".into(), pair(ascendant, descendant)),
        AddDescendant { ascendant, descendant } => ("AddDescendant".into(), pair(ascendant, descendant)),
        CreateSession { user, session, roles } => {
            ("CreateSession".into(), vec![of("user", user), of("session", session), ("roles", Names(roles))])
        }
        DeleteSession { user, session } => ("DeleteSession".into(), vec![of("user", user), of("session", session)]),
        AddActiveRole { user, session, role } => {
            ("AddActiveRole".into(), vec![of("user", user), of("session", session), of("role", role)])
        }
        DropActiveRole { user, session, role } => {
            ("DropActiveRole".into(), vec![of("user", user), of("session", session), of("role", role)])
        }
        CreateSet { kind, set, roles, n } => {
            (kind_word("Create", *kind, "Set"), vec![of("set", set), ("roles", Names(roles)), ("n", Number(*n))])
        }
        DeleteSet { kind, set } => (kind_word("Delete", *kind, "Set"), vec![of("set", set)]),
        AddRoleMember { kind, set, role } => {
            (kind_word("Add", *kind, "RoleMember"), vec![of("set", set), of("role", role)])
        }
        DeleteRoleMember { kind, set, role } => {
            (kind_word("Delete", *kind, "RoleMember"), vec![of("set", set), of("role", role)])
        }
        SetCardinality { kind, set, n } => {
            (kind_word("Set", *kind, "SetCardinality"), vec![of("set", set), ("n", Number(*n))])
        }
    }
}

fn pair<'a>(ascendant: &'a Name, descendant: &'a Name) -> Vec<Field<'a>> {
    vec![of("ascendant", ascendant), of("descendant", descendant)]
}

fn parts_of_review(review: &Review) -> (String, Vec<Field<'_>>) {
    use Review::*;
    match review {
        AssignedUsers { role } => ("AssignedUsers".into(), vec![of("role", role)]),
        AssignedRoles { user } => ("AssignedRoles".into(), vec![of("user", user)]),
        AuthorizedUsers { role } => ("AuthorizedUsers".into(), vec![of("role", role)]),
        AuthorizedRoles { user } => ("AuthorizedRoles".into(), vec![of("user", user)]),
        RolePermissions { role } => ("RolePermissions".into(), vec![of("role", role)]),
        UserPermissions { user } => ("UserPermissions".into(), vec![of("user", user)]),
        SessionRoles { session } => ("SessionRoles".into(), vec![of("session", session)]),
        SessionPermissions { session } => ("SessionPermissions".into(), vec![of("session", session)]),
        RoleOperationsOnObject { role, object } => {
            ("RoleOperationsOnObject".into(), vec![of("role", role), of("object", object)])
        }
        UserOperationsOnObject { user, object } => {
            ("UserOperationsOnObject".into(), vec![of("user", user), of("object", object)])
        }
        RoleSets { kind } => (kind_word("", *kind, "RoleSets"), vec![]),
        RoleSetRoles { kind, set } => (kind_word("", *kind, "RoleSetRoles"), vec![of("set", set)]),
        RoleSetCardinality { kind, set } => (kind_word("", *kind, "RoleSetCardinality"), vec![of("set", set)]),
    }
}
