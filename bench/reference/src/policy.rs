//! The policy: users, roles, assignments, grants, hierarchy, sessions and separation sets.
//!
//! A command names the first precondition of its row that fails, from left to right, and then nothing changes.

mod core;
mod dump;
mod hierarchy;
mod reviews;
mod separation;
mod sessions;

use crate::answer::{Answer, Denial};
use crate::command::{Change, Command, Separation};
use crate::name::Name;
use crate::number_set::NumberSet;
use crate::table::Table;
use crate::vocabulary::Vocabulary;
use std::collections::BTreeMap;
use std::rc::Rc;

/// What the founding says of the declared pairs.
#[derive(Clone, Copy, Debug, PartialEq, Eq)]
pub enum HierarchyKind {
    /// A role may be the ascendant of any number of pairs.
    General,
    /// A role may be the ascendant of one pair.
    Limited,
}

pub struct Policy {
    vocabulary: Rc<Vocabulary>,
    kind: HierarchyKind,
    users: Table<User>,
    roles: Table<Role>,
    sessions: Table<Session>,
    static_sets: BTreeMap<Name, SeparationSet>,
    dynamic_sets: BTreeMap<Name, SeparationSet>,
}

#[derive(Default)]
struct User {
    assigned: NumberSet,
}

#[derive(Default)]
struct Role {
    granted: NumberSet,
    /// The other halves of the declared pairs that this role is in.
    ascendants: NumberSet,
    descendants: NumberSet,
}

struct Session {
    owner: usize,
    active: NumberSet,
}

/// Nobody may have `n` or more of the roles.
struct SeparationSet {
    roles: NumberSet,
    n: u32,
}

type Changed = Result<(), Denial>;

impl Policy {
    pub fn new(vocabulary: Rc<Vocabulary>, kind: HierarchyKind) -> Policy {
        Policy {
            vocabulary,
            kind,
            users: Table::new(),
            roles: Table::new(),
            sessions: Table::new(),
            static_sets: BTreeMap::new(),
            dynamic_sets: BTreeMap::new(),
        }
    }

    /// Answers a command, and makes the change that it asks for where nothing denies it.
    // Not inlined, so that bench/shares tells it apart.
    #[inline(never)]
    pub fn apply(&mut self, command: &Command) -> Answer {
        let answer = match command {
            Command::Change(change) => self.change(change).map(|()| Answer::Done),
            Command::CheckAccess { session, operation, object } => self.check_access(session, operation, object),
            Command::Review(review) => self.review(review),
        };
        answer.unwrap_or_else(Answer::Denied)
    }

    fn change(&mut self, change: &Change) -> Changed {
        use Change::*;
        match change {
            AddUser { user } => self.add_user(user),
            DeleteUser { user } => self.delete_user(user),
            AddRole { role } => self.add_role(role),
            DeleteRole { role } => self.delete_role(role),
            AssignUser { user, role } => self.assign_user(user, role),
            DeassignUser { user, role } => self.deassign_user(user, role),
            GrantPermission { operation, object, role } => self.grant_permission(operation, object, role),
            RevokePermission { operation, object, role } => self.revoke_permission(operation, object, role),
            AddInheritance { ascendant, descendant } => self.add_inheritance(ascendant, descendant),
            DeleteInheritance { ascendant, descendant } => self.delete_inheritance(ascendant, descendant),
            AddAscendant { ascendant, descendant } => self.add_ascendant(ascendant, descendant),
            AddDescendant { ascendant, descendant } => self.add_descendant(ascendant, descendant),
            CreateSession { user, session, roles } => self.create_session(user, session, roles),
            DeleteSession { user, session } => self.delete_session(user, session),
            AddActiveRole { user, session, role } => self.add_active_role(user, session, role),
            DropActiveRole { user, session, role } => self.drop_active_role(user, session, role),
            CreateSet { kind, set, roles, n } => self.create_set(*kind, set, roles, *n),
            DeleteSet { kind, set } => self.delete_set(*kind, set),
            AddRoleMember { kind, set, role } => self.add_role_member(*kind, set, role),
            DeleteRoleMember { kind, set, role } => self.delete_role_member(*kind, set, role),
            SetCardinality { kind, set, n } => self.set_cardinality(*kind, set, *n),
        }
    }

    fn user(&self, name: &Name) -> Result<usize, Denial> {
        self.users.number(name).ok_or(Denial::NoUser)
    }

    fn role(&self, name: &Name) -> Result<usize, Denial> {
        self.roles.number(name).ok_or(Denial::NoRole)
    }

    fn session(&self, name: &Name) -> Result<usize, Denial> {
        self.sessions.number(name).ok_or(Denial::NoSession)
    }

    fn sets(&self, kind: Separation) -> &BTreeMap<Name, SeparationSet> {
        match kind {
            Separation::Static => &self.static_sets,
            Separation::Dynamic => &self.dynamic_sets,
        }
    }
}

/// Denies where a condition of a row fails.
fn require(holds: bool, denial: Denial) -> Changed {
    if holds { Ok(()) } else { Err(denial) }
}
