//! The commands: changes of a policy, checks and reviews.

use crate::name::Name;

#[derive(Clone, Debug)]
pub enum Command {
    Change(Change),
    CheckAccess { session: Name, operation: Name, object: Name },
    Review(Review),
}

/// The two kinds of separation of duty.
#[derive(Clone, Copy, Debug, PartialEq, Eq)]
pub enum Separation {
    Static,
    Dynamic,
}

#[derive(Clone, Debug)]
pub enum Change {
    AddUser { user: Name },
    DeleteUser { user: Name },
    AddRole { role: Name },
    DeleteRole { role: Name },
    AssignUser { user: Name, role: Name },
    DeassignUser { user: Name, role: Name },
    GrantPermission { operation: Name, object: Name, role: Name },
    RevokePermission { operation: Name, object: Name, role: Name },

    AddInheritance { ascendant: Name, descendant: Name },
    DeleteInheritance { ascendant: Name, descendant: Name },
    AddAscendant { ascendant: Name, descendant: Name },
    AddDescendant { ascendant: Name, descendant: Name },

    CreateSession { user: Name, session: Name, roles: Vec<Name> },
    DeleteSession { user: Name, session: Name },
    AddActiveRole { user: Name, session: Name, role: Name },
    DropActiveRole { user: Name, session: Name, role: Name },

    CreateSet { kind: Separation, set: Name, roles: Vec<Name>, n: u32 },
    DeleteSet { kind: Separation, set: Name },
    AddRoleMember { kind: Separation, set: Name, role: Name },
    DeleteRoleMember { kind: Separation, set: Name, role: Name },
    SetCardinality { kind: Separation, set: Name, n: u32 },
}

#[derive(Clone, Debug)]
pub enum Review {
    AssignedUsers { role: Name },
    AssignedRoles { user: Name },
    AuthorizedUsers { role: Name },
    AuthorizedRoles { user: Name },
    RolePermissions { role: Name },
    UserPermissions { user: Name },
    SessionRoles { session: Name },
    SessionPermissions { session: Name },
    RoleOperationsOnObject { role: Name, object: Name },
    UserOperationsOnObject { user: Name, object: Name },
    RoleSets { kind: Separation },
    RoleSetRoles { kind: Separation, set: Name },
    RoleSetCardinality { kind: Separation, set: Name },
}
