//! A policy told as the commands that make it again.

use super::{Policy, Role, SeparationSet, Session, User};
use crate::command::{Change, Command, Separation};
use crate::limits;
use crate::name::Name;
use crate::number_set::NumberSet;
use crate::output::command_length;
use crate::table::Entry;
use std::iter::once;

/// Things in order, which is that of their names.
fn sorted<T: Ord>(things: impl Iterator<Item = T>) -> Vec<T> {
    let mut things: Vec<T> = things.collect();
    things.sort_unstable();
    things
}

fn is_long(change: &Change) -> bool {
    command_length(&Command::Change(change.clone())) > limits::LINE_BYTES
}

impl Policy {
    /// Users and roles come before what names them, and all that authorizes a user before what asks for it. A set whose command has
    /// no room in a line is made in parts before users have roles, so that nobody breaks it meanwhile.
    pub fn dump(&self) -> Vec<Command> {
        let mut told = self.users_and_roles();
        told.extend(self.sets_told(Separation::Static, true));
        told.extend(self.sets_told(Separation::Dynamic, true));
        told.extend(self.assignments());
        told.extend(self.declarations());
        told.extend(self.grants());
        told.extend(self.sets_told(Separation::Static, false));
        told.extend(self.sessions_told());
        told.extend(self.sets_told(Separation::Dynamic, false));
        told.into_iter().map(Command::Change).collect()
    }

    fn users_and_roles(&self) -> Vec<Change> {
        let users = sorted(self.users.iter().map(|(_, entry)| entry.name.clone()));
        let roles = sorted(self.roles.iter().map(|(_, entry)| entry.name.clone()));
        let users = users.into_iter().map(|user| Change::AddUser { user });
        users.chain(roles.into_iter().map(|role| Change::AddRole { role })).collect()
    }

    fn assignments(&self) -> Vec<Change> {
        let of_user = |(_, user): (usize, &Entry<User>)| {
            let user_name = user.name.clone();
            self.role_names(&user.value.assigned).into_iter().map(move |role| (user_name.clone(), role))
        };
        let pairs = sorted(self.users.iter().flat_map(of_user));
        pairs.into_iter().map(|(user, role)| Change::AssignUser { user, role }).collect()
    }

    fn declarations(&self) -> Vec<Change> {
        let of_role = |(_, role): (usize, &Entry<Role>)| {
            let ascendant = role.name.clone();
            self.role_names(&role.value.descendants).into_iter().map(move |other| (ascendant.clone(), other))
        };
        let pairs = sorted(self.roles.iter().flat_map(of_role));
        pairs.into_iter().map(|(ascendant, descendant)| Change::AddInheritance { ascendant, descendant }).collect()
    }

    fn grants(&self) -> Vec<Change> {
        let of_role = |(_, role): (usize, &Entry<Role>)| {
            let permissions = role.value.granted.iter().map(|number| self.vocabulary.permission_at(number));
            let told = permissions.map(|one| (one.operation.clone(), one.object.clone(), role.name.clone()));
            told.collect::<Vec<_>>()
        };
        let grants = sorted(self.roles.iter().flat_map(of_role));
        let told = grants.into_iter();
        told.map(|(operation, object, role)| Change::GrantPermission { operation, object, role }).collect()
    }

    fn role_names(&self, roles: &NumberSet) -> Vec<Name> {
        sorted(roles.iter().map(|role| self.roles.name(role).clone()))
    }

    /// The sets of a kind that have no room in a line, or those that have.
    fn sets_told(&self, kind: Separation, are_long: bool) -> Vec<Change> {
        let mut told = Vec::new();
        for (name, set) in self.sets(kind) {
            let whole = self.set_told(kind, name, set);
            if is_long(&whole) != are_long {
                continue;
            }
            if are_long { told.extend(in_parts(whole)) } else { told.push(whole) }
        }
        told
    }

    fn set_told(&self, kind: Separation, name: &Name, set: &SeparationSet) -> Change {
        Change::CreateSet { kind, set: name.clone(), roles: self.role_names(&set.roles), n: set.n }
    }

    fn sessions_told(&self) -> Vec<Change> {
        let told = |(_, session): (usize, &Entry<Session>)| {
            let user = self.users.name(session.value.owner).clone();
            (session.name.clone(), user, self.role_names(&session.value.active))
        };
        let sessions = sorted(self.sessions.iter().map(told)).into_iter();
        let whole = sessions.map(|(session, user, roles)| Change::CreateSession { user, session, roles });
        whole.flat_map(|whole| if is_long(&whole) { in_parts(whole) } else { vec![whole] }).collect()
    }
}

/// A set or a session that is made of its first two roles, and then of each other one.
fn in_parts(whole: Change) -> Vec<Change> {
    match whole {
        Change::CreateSet { kind, set, mut roles, n } => {
            let others = roles.split_off(2);
            let joining = |role| Change::AddRoleMember { kind, set: set.clone(), role };
            let joined: Vec<Change> = others.into_iter().map(joining).collect();
            let last = Change::SetCardinality { kind, set: set.clone(), n };
            once(Change::CreateSet { kind, set, roles, n: 2 }).chain(joined).chain(once(last)).collect()
        }
        Change::CreateSession { user, session, mut roles } => {
            let others = roles.split_off(2);
            let activating = |role| Change::AddActiveRole { user: user.clone(), session: session.clone(), role };
            let activated: Vec<Change> = others.into_iter().map(activating).collect();
            once(Change::CreateSession { user, session, roles }).chain(activated).collect()
        }
        other => vec![other],
    }
}
