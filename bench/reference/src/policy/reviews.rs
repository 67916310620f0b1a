//! Reviews: sorted lists of what is assigned, authorized, permitted, active or kept apart.

use super::Policy;
use crate::answer::{Answer, Denial};
use crate::command::Review;
use crate::name::Name;
use crate::number_set::NumberSet;

impl Policy {
    pub(super) fn review(&self, review: &Review) -> Result<Answer, Denial> {
        use Review::*;
        Ok(match review {
            AssignedUsers { role } => self.users_with_any(&[self.role(role)?].into_iter().collect()),
            AssignedRoles { user } => self.names_of_roles(&self.users.get(self.user(user)?).assigned),
            AuthorizedUsers { role } => self.users_with_any(&self.seniors_of(self.role(role)?)),
            AuthorizedRoles { user } => self.names_of_roles(&self.authorized_roles(self.user(user)?)),
            RolePermissions { role } => self.list_permissions(&self.juniors_of(self.role(role)?)),
            UserPermissions { user } => self.list_permissions(&self.authorized_roles(self.user(user)?)),
            SessionRoles { session } => self.names_of_roles(&self.sessions.get(self.session(session)?).active),
            SessionPermissions { session } => {
                let active = &self.sessions.get(self.session(session)?).active;
                self.list_permissions(&self.all_juniors(active))
            }
            RoleOperationsOnObject { role, object } => {
                let role = self.role(role)?;
                self.operations_on(object, &self.juniors_of(role))?
            }
            UserOperationsOnObject { user, object } => {
                let user = self.user(user)?;
                self.operations_on(object, &self.authorized_roles(user))?
            }
            RoleSets { kind } => Answer::Names(self.sets(*kind).keys().cloned().collect()),
            RoleSetRoles { kind, set } => self.names_of_roles(&self.set(*kind, set)?.roles),
            RoleSetCardinality { kind, set } => Answer::Count(self.set(*kind, set)?.n),
        })
    }

    /// The users to whom at least one of the roles is assigned.
    fn users_with_any(&self, roles: &NumberSet) -> Answer {
        let users = self.users.iter().filter(|(_, entry)| entry.value.assigned.count_shared(roles) > 0);
        sorted_names(users.map(|(_, entry)| entry.name.clone()))
    }

    fn names_of_roles(&self, roles: &NumberSet) -> Answer {
        sorted_names(roles.iter().map(|role| self.roles.name(role).clone()))
    }

    /// The permissions that are granted to at least one of the roles.
    fn permissions_of(&self, roles: &NumberSet) -> NumberSet {
        let mut permissions = NumberSet::default();
        for role in roles.iter() {
            permissions.insert_all(&self.roles.get(role).granted);
        }
        permissions
    }

    fn list_permissions(&self, roles: &NumberSet) -> Answer {
        let permissions = self.permissions_of(roles);
        let listed = permissions.iter().map(|number| self.vocabulary.permission_at(number));
        Answer::Permissions(
            listed.map(|permission| (permission.operation.clone(), permission.object.clone())).collect(),
        )
    }

    /// The operations on an object that are permitted to at least one of the roles.
    fn operations_on(&self, object: &Name, roles: &NumberSet) -> Result<Answer, Denial> {
        let object = self.vocabulary.object(object).ok_or(Denial::NoObject)?;
        let permissions = self.permissions_of(roles);
        let listed = permissions.iter().map(|number| self.vocabulary.permission_at(number));
        let on_object = listed.filter(|permission| permission.is_on(object));
        Ok(Answer::Names(on_object.map(|permission| permission.operation.clone()).collect()))
    }
}

fn sorted_names(names: impl Iterator<Item = Name>) -> Answer {
    let mut names: Vec<Name> = names.collect();
    names.sort_unstable();
    Answer::Names(names)
}
