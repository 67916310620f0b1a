//! A command object as a command.
//!
//! Each reader below gives the command where the word is one of its own, and none where it is not.

use super::LineRefusal;
use super::fields::Fields;
use crate::command::{Change, Command, Review, Separation};
use crate::json::Object;

type Found<T> = Result<Option<T>, LineRefusal>;

pub fn read_command(object: &Object) -> Result<Command, LineRefusal> {
    let mut fields = Fields::new(object);
    let word = fields.text("name")?;
    let command = find_command(word, &mut fields)?.ok_or(LineRefusal::UnknownWord)?;
    fields.end()?;
    Ok(command)
}

fn find_command(word: &str, fields: &mut Fields) -> Found<Command> {
    if word == "CheckAccess" {
        let (session, operation) = (fields.name("session")?, fields.name("operation")?);
        return Ok(Some(Command::CheckAccess { session, operation, object: fields.name("object")? }));
    }
    for read in [find_core, find_hierarchy, find_session, find_set] {
        if let Some(change) = read(word, fields)? {
            return Ok(Some(Command::Change(change)));
        }
    }
    for read in [find_review, find_set_review] {
        if let Some(review) = read(word, fields)? {
            return Ok(Some(Command::Review(review)));
        }
    }
    Ok(None)
}

fn find_core(word: &str, fields: &mut Fields) -> Found<Change> {
    Ok(Some(match word {
        "AddUser" => Change::AddUser { user: fields.name("user")? },
        "DeleteUser" => Change::DeleteUser { user: fields.name("user")? },
        "AddRole" => Change::AddRole { role: fields.name("role")? },
        "DeleteRole" => Change::DeleteRole { role: fields.name("role")? },
        "AssignUser" => Change::AssignUser { user: fields.name("user")?, role: fields.name("role")? },
        "DeassignUser" => Change::DeassignUser { user: fields.name("user")?, role: fields.name("role")? },
        "GrantPermission" => Change::GrantPermission {
            operation: fields.name("operation")?,
            object: fields.name("object")?,
            role: fields.name("role")?,
        },
        "RevokePermission" => Change::RevokePermission {
            operation: fields.name("operation")?,
            object: fields.name("object")?,
            role: fields.name("role")?,
        },
        _ => return Ok(None),
    }))
}

fn find_hierarchy(word: &str, fields: &mut Fields) -> Found<Change> {
    if !matches!(word, "AddInheritance" | "DeleteInheritance" | "AddAscendant" | "AddDescendant") {
        return Ok(None);
    }
    let (ascendant, descendant) = (fields.name("ascendant")?, fields.name("descendant")?);
    Ok(Some(match word {
        "AddInheritance" => Change::AddInheritance { ascendant, descendant },
        "DeleteInheritance" => Change::DeleteInheritance { ascendant, descendant },
        "AddAscendant" => Change::AddAscendant { ascendant, descendant },
        _ => Change::AddDescendant { ascendant, descendant },
    }))
}

fn find_session(word: &str, fields: &mut Fields) -> Found<Change> {
    if !matches!(word, "CreateSession" | "DeleteSession" | "AddActiveRole" | "DropActiveRole") {
        return Ok(None);
    }
    let (user, session) = (fields.name("user")?, fields.name("session")?);
    Ok(Some(match word {
        "CreateSession" => Change::CreateSession { user, session, roles: fields.names("roles")? },
        "DeleteSession" => Change::DeleteSession { user, session },
        "AddActiveRole" => Change::AddActiveRole { user, session, role: fields.name("role")? },
        _ => Change::DropActiveRole { user, session, role: fields.name("role")? },
    }))
}

/// Splits a word at the kind of separation in it: `CreateSsdSet` is `Create`, static, `Set`.
fn split_at_kind(word: &str) -> Option<(&str, Separation, &str)> {
    let kinds = [("Ssd", Separation::Static), ("Dsd", Separation::Dynamic)];
    kinds.into_iter().find_map(|(text, kind)| {
        let (before, after) = word.split_once(text)?;
        Some((before, kind, after))
    })
}

fn find_set(word: &str, fields: &mut Fields) -> Found<Change> {
    let Some((before, kind, after)) = split_at_kind(word) else {
        return Ok(None);
    };
    Ok(Some(match (before, after) {
        ("Create", "Set") => {
            let (set, roles) = (fields.name("set")?, fields.names("roles")?);
            Change::CreateSet { kind, set, roles, n: fields.number("n")? }
        }
        ("Delete", "Set") => Change::DeleteSet { kind, set: fields.name("set")? },
        ("Add", "RoleMember") => Change::AddRoleMember { kind, set: fields.name("set")?, role: fields.name("role")? },
        ("Delete", "RoleMember") => {
            Change::DeleteRoleMember { kind, set: fields.name("set")?, role: fields.name("role")? }
        }
        ("Set", "SetCardinality") => Change::SetCardinality { kind, set: fields.name("set")?, n: fields.number("n")? },
        _ => return Ok(None),
    }))
}

fn find_review(word: &str, fields: &mut Fields) -> Found<Review> {
    Ok(Some(match word {
        "AssignedUsers" => Review::AssignedUsers { role: fields.name("role")? },
        "AssignedRoles" => Review::AssignedRoles { user: fields.name("user")? },
        "AuthorizedUsers" => Review::AuthorizedUsers { role: fields.name("role")? },
        "AuthorizedRoles" => Review::AuthorizedRoles { user: fields.name("user")? },
        "RolePermissions" => Review::RolePermissions { role: fields.name("role")? },
        "UserPermissions" => Review::UserPermissions { user: fields.name("user")? },
        "SessionRoles" => Review::SessionRoles { session: fields.name("session")? },
        "SessionPermissions" => Review::SessionPermissions { session: fields.name("session")? },
        "RoleOperationsOnObject" => {
            Review::RoleOperationsOnObject { role: fields.name("role")?, object: fields.name("object")? }
        }
        "UserOperationsOnObject" => {
            Review::UserOperationsOnObject { user: fields.name("user")?, object: fields.name("object")? }
        }
        _ => return Ok(None),
    }))
}

fn find_set_review(word: &str, fields: &mut Fields) -> Found<Review> {
    let Some(("", kind, after)) = split_at_kind(word) else {
        return Ok(None);
    };
    Ok(Some(match after {
        "RoleSets" => Review::RoleSets { kind },
        "RoleSetRoles" => Review::RoleSetRoles { kind, set: fields.name("set")? },
        "RoleSetCardinality" => Review::RoleSetCardinality { kind, set: fields.name("set")? },
        _ => return Ok(None),
    }))
}
