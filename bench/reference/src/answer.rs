//! What a delivered command is answered.

use crate::name::Name;

#[derive(Clone, Debug, PartialEq, Eq)]
pub enum Answer {
    Done,
    Granted,
    Refused,
    Names(Vec<Name>),
    /// Pairs of operation and object.
    Permissions(Vec<(Name, Name)>),
    Count(u32),
    Denied(Denial),
}

/// The precondition that failed first. The word in an answer is the variant's name.
#[derive(Clone, Copy, Debug, PartialEq, Eq)]
pub enum Denial {
    UserExists = 1,
    NoUser,
    RoleExists,
    NoRole,
    Assigned,
    NotAssigned,
    NoPermission,
    NotGranted,
    SessionExists,
    NoSession,
    NotOwner,
    NotAuthorized,
    RoleActive,
    RoleNotActive,
    Inherits,
    NoInheritance,
    Cycle,
    SsdViolated,
    DsdViolated,
    SetExists,
    NoSet,
    BadCardinality,
    InSet,
    NotInSet,
    RoleConstrained,
    Limit,
    NoOperation,
    NoObject,
    Limited,
}

impl Denial {
    pub fn number(self) -> u32 {
        self as u32
    }
}
