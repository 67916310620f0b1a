//! The commands, with their fields and the answers that each can get.

pub struct Row {
    pub name: &'static str,
    pub fields: &'static [&'static str],
    /// Words of answers and denials. A list that is empty is counted by itself.
    pub answers: &'static [&'static str],
    pub group: Group,
}

impl Row {
    pub fn is_check(&self) -> bool {
        self.name == "CheckAccess"
    }

    /// Whether it changes nothing.
    pub fn is_question(&self) -> bool {
        self.group == Group::Review || self.is_check()
    }
}

#[derive(Clone, Copy, PartialEq, Eq)]
pub enum Group {
    Core,
    Hierarchy,
    Session,
    Separation,
    Review,
}

const fn row(
    group: Group,
    name: &'static str,
    fields: &'static [&'static str],
    answers: &'static [&'static str],
) -> Row {
    Row { name, fields, answers, group }
}

use Group::*;

const PAIR: &[&str] = &["ascendant", "descendant"];
const PERMISSION: &[&str] = &["operation", "object", "role"];
const CREATED: &[&str] = &["set", "roles", "n"];

pub const ROWS: [Row; 43] = [
    row(Core, "AddUser", &["user"], &["Done", "UserExists", "Limit"]),
    row(Core, "DeleteUser", &["user"], &["Done", "NoUser"]),
    row(Core, "AddRole", &["role"], &["Done", "RoleExists", "Limit"]),
    row(Core, "DeleteRole", &["role"], &["Done", "NoRole", "RoleConstrained"]),
    row(Core, "AssignUser", &["user", "role"], &["Done", "NoUser", "NoRole", "Assigned", "SsdViolated"]),
    row(Core, "DeassignUser", &["user", "role"], &["Done", "NoUser", "NoRole", "NotAssigned"]),
    row(Core, "GrantPermission", PERMISSION, &["Done", "NoPermission", "NoRole"]),
    row(Core, "RevokePermission", PERMISSION, &["Done", "NoPermission", "NoRole", "NotGranted"]),
    row(Hierarchy, "AddInheritance", PAIR, &["Done", "NoRole", "Inherits", "Cycle", "SsdViolated"]),
    row(Hierarchy, "DeleteInheritance", PAIR, &["Done", "NoRole", "NoInheritance"]),
    row(Hierarchy, "AddAscendant", PAIR, &["Done", "RoleExists", "NoRole", "Limit"]),
    row(Hierarchy, "AddDescendant", PAIR, &["Done", "RoleExists", "NoRole", "Limit"]),
    row(
        Session,
        "CreateSession",
        &["user", "session", "roles"],
        &["Done", "NoUser", "SessionExists", "NotAuthorized", "DsdViolated", "Limit"],
    ),
    row(Session, "DeleteSession", &["user", "session"], &["Done", "NoUser", "NoSession", "NotOwner"]),
    row(
        Session,
        "AddActiveRole",
        &["user", "session", "role"],
        &["Done", "NoUser", "NoSession", "NoRole", "NotOwner", "NotAuthorized", "RoleActive", "DsdViolated"],
    ),
    row(
        Session,
        "DropActiveRole",
        &["user", "session", "role"],
        &["Done", "NoUser", "NoSession", "NoRole", "NotOwner", "RoleNotActive"],
    ),
    row(
        Session,
        "CheckAccess",
        &["session", "operation", "object"],
        &["Granted", "Refused", "NoSession", "NoOperation", "NoObject"],
    ),
    row(
        Separation,
        "CreateSsdSet",
        CREATED,
        &["Done", "SetExists", "NoRole", "BadCardinality", "SsdViolated", "Limit"],
    ),
    row(Separation, "DeleteSsdSet", &["set"], &["Done", "NoSet"]),
    row(Separation, "AddSsdRoleMember", &["set", "role"], &["Done", "NoSet", "NoRole", "InSet", "SsdViolated"]),
    row(Separation, "DeleteSsdRoleMember", &["set", "role"], &["Done", "NoSet", "NotInSet", "BadCardinality"]),
    row(Separation, "SetSsdSetCardinality", &["set", "n"], &["Done", "NoSet", "BadCardinality", "SsdViolated"]),
    row(
        Separation,
        "CreateDsdSet",
        CREATED,
        &["Done", "SetExists", "NoRole", "BadCardinality", "DsdViolated", "Limit"],
    ),
    row(Separation, "DeleteDsdSet", &["set"], &["Done", "NoSet"]),
    row(Separation, "AddDsdRoleMember", &["set", "role"], &["Done", "NoSet", "NoRole", "InSet", "DsdViolated"]),
    row(Separation, "DeleteDsdRoleMember", &["set", "role"], &["Done", "NoSet", "NotInSet", "BadCardinality"]),
    row(Separation, "SetDsdSetCardinality", &["set", "n"], &["Done", "NoSet", "BadCardinality", "DsdViolated"]),
    row(Review, "AssignedUsers", &["role"], &["names", "no names", "NoRole"]),
    row(Review, "AssignedRoles", &["user"], &["names", "no names", "NoUser"]),
    row(Review, "AuthorizedUsers", &["role"], &["names", "no names", "NoRole"]),
    row(Review, "AuthorizedRoles", &["user"], &["names", "no names", "NoUser"]),
    row(Review, "RolePermissions", &["role"], &["permissions", "no permissions", "NoRole"]),
    row(Review, "UserPermissions", &["user"], &["permissions", "no permissions", "NoUser"]),
    row(Review, "SessionRoles", &["session"], &["names", "no names", "NoSession"]),
    row(Review, "SessionPermissions", &["session"], &["permissions", "no permissions", "NoSession"]),
    row(Review, "RoleOperationsOnObject", &["role", "object"], &["names", "no names", "NoRole", "NoObject"]),
    row(Review, "UserOperationsOnObject", &["user", "object"], &["names", "no names", "NoUser", "NoObject"]),
    row(Review, "SsdRoleSets", &[], &["names", "no names"]),
    row(Review, "SsdRoleSetRoles", &["set"], &["names", "NoSet"]),
    row(Review, "SsdRoleSetCardinality", &["set"], &["count", "NoSet"]),
    row(Review, "DsdRoleSets", &[], &["names", "no names"]),
    row(Review, "DsdRoleSetRoles", &["set"], &["names", "NoSet"]),
    row(Review, "DsdRoleSetCardinality", &["set"], &["count", "NoSet"]),
];

/// The commands of the hierarchy where it is limited: each answer has to occur there too.
pub const LIMITED_ROWS: [Row; 4] = [
    row(Hierarchy, "AddInheritance, limited", PAIR, &["Done", "NoRole", "Inherits", "Cycle", "Limited", "SsdViolated"]),
    row(Hierarchy, "DeleteInheritance, limited", PAIR, &["Done", "NoRole", "NoInheritance"]),
    row(Hierarchy, "AddAscendant, limited", PAIR, &["Done", "RoleExists", "NoRole", "Limit"]),
    row(Hierarchy, "AddDescendant, limited", PAIR, &["Done", "RoleExists", "NoRole", "Limited", "Limit"]),
];

/// What a line can get besides the answer of a command.
pub const OUTCOMES: [&str; 3] = ["submitted", "delivered", "delivered nothing"];

/// What a line can get besides in a group alone.
pub const GROUP_OUTCOMES: [&str; 5] = ["acknowledged", "read", "NotSent", "Repeat", "Gap"];

/// The refusals of lines, and those of events that a member alone can meet.
pub const REFUSALS: [&str; 14] = [
    "TooLong",
    "NotJson",
    "NotObject",
    "UnknownWord",
    "MissingField",
    "WrongKind",
    "BadName",
    "ExtraField",
    "UnknownMember",
    "FromSelf",
    "BadBatch",
    "ClockFull",
    "SentFull",
    "BadSerial",
];

/// The refusals of a command's text that are compared: what stands round it is not the library's to read.
pub const CALL_REFUSALS: [&str; 6] = ["NotJson", "UnknownWord", "MissingField", "WrongKind", "BadName", "ExtraField"];

/// How a program can end: its status, and the words of its message where that is its own.
pub const ENDS: [&str; 14] = [
    "status 0",
    "status 1 file",
    "status 1 founding: TooLong",
    "status 1 founding: NotToml",
    "status 1 founding: BadVersion",
    "status 1 founding: UnknownKey",
    "status 1 founding: MissingKey",
    "status 1 founding: WrongKind",
    "status 1 founding: OutOfRange",
    "status 1 founding: BadName",
    "status 1 founding: Repeated",
    "status 1 founding: UnknownName",
    "status 1 run: Read",
    "status 2",
];

/// How a run can end on a founding file of version 2, besides.
pub const VERSION_2_ENDS: [&str; 10] = [
    "version 2, status 0",
    "version 2, status 1 founding: TooLong",
    "version 2, status 1 founding: NotToml",
    "version 2, status 1 founding: UnknownKey",
    "version 2, status 1 founding: MissingKey",
    "version 2, status 1 founding: WrongKind",
    "version 2, status 1 founding: OutOfRange",
    "version 2, status 1 founding: BadName",
    "version 2, status 1 founding: Repeated",
    "version 2, status 1 founding: UnknownName",
];

/// The commands of dumps, each of which has to occur in one.
pub const DUMPED: [&str; 9] = [
    "AddUser",
    "AddRole",
    "AssignUser",
    "AddInheritance",
    "AddInheritance, limited",
    "GrantPermission",
    "CreateSsdSet",
    "CreateDsdSet",
    "CreateSession",
];

/// The row of a command, or of a command of a limited hierarchy.
pub fn row_of(name: &str) -> Option<&'static Row> {
    ROWS.iter().chain(&LIMITED_ROWS).find(|row| row.name == name)
}
