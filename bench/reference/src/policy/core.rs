//! Users, roles, assignments and grants.

use super::{Changed, Policy, Role, User, require};
use crate::answer::Denial;
use crate::limits;
use crate::name::Name;

impl Policy {
    pub(super) fn add_user(&mut self, user: &Name) -> Changed {
        require(self.users.number(user).is_none(), Denial::UserExists)?;
        require(self.users.len() < limits::USERS, Denial::Limit)?;
        self.users.add(user.clone(), User::default());
        Ok(())
    }

    pub(super) fn delete_user(&mut self, user: &Name) -> Changed {
        let user = self.user(user)?;
        self.sessions.retain(|session| session.owner != user);
        self.users.remove(user);
        Ok(())
    }

    pub(super) fn add_role(&mut self, role: &Name) -> Changed {
        require(self.roles.number(role).is_none(), Denial::RoleExists)?;
        self.new_role(role)?;
        Ok(())
    }

    /// Adds a role whose name is free, and gives its number.
    pub(super) fn new_role(&mut self, role: &Name) -> Result<usize, Denial> {
        require(self.roles.len() < limits::ROLES, Denial::Limit)?;
        Ok(self.roles.add(role.clone(), Role::default()))
    }

    pub(super) fn delete_role(&mut self, role: &Name) -> Changed {
        let role = self.role(role)?;
        require(!self.is_constrained(role), Denial::RoleConstrained)?;
        for user in self.users.values_mut() {
            user.assigned.remove(role);
        }
        for other in self.roles.values_mut() {
            other.ascendants.remove(role);
            other.descendants.remove(role);
        }
        self.roles.remove(role);
        self.sessions.retain(|session| !session.active.contains(role));
        self.purge();
        Ok(())
    }

    pub(super) fn assign_user(&mut self, user: &Name, role: &Name) -> Changed {
        let user = self.user(user)?;
        let role = self.role(role)?;
        require(!self.users.get(user).assigned.contains(role), Denial::Assigned)?;
        self.users.get_mut(user).assigned.insert(role);
        if self.breaks_static_sets(user) {
            self.users.get_mut(user).assigned.remove(role);
            return Err(Denial::SsdViolated);
        }
        Ok(())
    }

    pub(super) fn deassign_user(&mut self, user: &Name, role: &Name) -> Changed {
        let user = self.user(user)?;
        let role = self.role(role)?;
        require(self.users.get_mut(user).assigned.remove(role), Denial::NotAssigned)?;
        // These end also where a senior role still authorizes the user for the role.
        self.sessions.retain(|session| session.owner != user || !session.active.contains(role));
        self.purge();
        Ok(())
    }

    pub(super) fn grant_permission(&mut self, operation: &Name, object: &Name, role: &Name) -> Changed {
        let permission = self.permission(operation, object)?;
        let role = self.role(role)?;
        self.roles.get_mut(role).granted.insert(permission);
        Ok(())
    }

    pub(super) fn revoke_permission(&mut self, operation: &Name, object: &Name, role: &Name) -> Changed {
        let permission = self.permission(operation, object)?;
        let role = self.role(role)?;
        require(self.roles.get_mut(role).granted.remove(permission), Denial::NotGranted)
    }

    fn permission(&self, operation: &Name, object: &Name) -> Result<usize, Denial> {
        let operation = self.vocabulary.operation(operation).ok_or(Denial::NoPermission)?;
        let object = self.vocabulary.object(object).ok_or(Denial::NoPermission)?;
        self.vocabulary.permission(operation, object).ok_or(Denial::NoPermission)
    }
}
