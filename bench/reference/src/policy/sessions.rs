//! Sessions, their active roles, and checks.

use super::{Changed, Policy, Session, require};
use crate::answer::{Answer, Denial};
use crate::limits;
use crate::name::Name;
use crate::number_set::NumberSet;
use std::collections::HashMap;

impl Policy {
    pub(super) fn create_session(&mut self, user: &Name, session: &Name, roles: &[Name]) -> Changed {
        let owner = self.user(user)?;
        require(self.sessions.number(session).is_none(), Denial::SessionExists)?;
        let active = self.numbers_of_roles(roles).ok_or(Denial::NotAuthorized)?;
        require(self.authorized_roles(owner).contains_all(&active), Denial::NotAuthorized)?;
        require(!self.breaks_dynamic_sets(&active), Denial::DsdViolated)?;
        require(self.sessions.len() < limits::SESSIONS, Denial::Limit)?;
        self.sessions.add(session.clone(), Session { owner, active });
        Ok(())
    }

    /// The numbers of the roles, or none where one of them is no role.
    pub(super) fn numbers_of_roles(&self, roles: &[Name]) -> Option<NumberSet> {
        roles.iter().map(|role| self.roles.number(role)).collect()
    }

    pub(super) fn delete_session(&mut self, user: &Name, session: &Name) -> Changed {
        let user = self.user(user)?;
        let session = self.session(session)?;
        require(self.sessions.get(session).owner == user, Denial::NotOwner)?;
        self.sessions.remove(session);
        Ok(())
    }

    pub(super) fn add_active_role(&mut self, user: &Name, session: &Name, role: &Name) -> Changed {
        let user = self.user(user)?;
        let session = self.session(session)?;
        let role = self.role(role)?;
        require(self.sessions.get(session).owner == user, Denial::NotOwner)?;
        require(self.authorized_roles(user).contains(role), Denial::NotAuthorized)?;
        let mut active = self.sessions.get(session).active.clone();
        require(active.insert(role), Denial::RoleActive)?;
        require(!self.breaks_dynamic_sets(&active), Denial::DsdViolated)?;
        self.sessions.get_mut(session).active = active;
        Ok(())
    }

    pub(super) fn drop_active_role(&mut self, user: &Name, session: &Name, role: &Name) -> Changed {
        let user = self.user(user)?;
        let session = self.session(session)?;
        let role = self.role(role)?;
        require(self.sessions.get(session).owner == user, Denial::NotOwner)?;
        require(self.sessions.get_mut(session).active.remove(role), Denial::RoleNotActive)
    }

    pub(super) fn check_access(&self, session: &Name, operation: &Name, object: &Name) -> Result<Answer, Denial> {
        let session = self.session(session)?;
        let operation = self.vocabulary.operation(operation).ok_or(Denial::NoOperation)?;
        let object = self.vocabulary.object(object).ok_or(Denial::NoObject)?;
        let Some(permission) = self.vocabulary.permission(operation, object) else {
            return Ok(Answer::Refused);
        };
        let roles = self.all_juniors(&self.sessions.get(session).active);
        let holds = roles.iter().any(|role| self.roles.get(role).granted.contains(permission));
        Ok(if holds { Answer::Granted } else { Answer::Refused })
    }

    /// Ends each session with an active role for which its owner is not authorized any more.
    pub(super) fn purge(&mut self) {
        let mut authorized: HashMap<usize, NumberSet> = HashMap::new();
        let mut ended = Vec::new();
        for (number, entry) in self.sessions.iter() {
            let session = &entry.value;
            let roles = authorized.entry(session.owner).or_insert_with(|| self.authorized_roles(session.owner));
            if !roles.contains_all(&session.active) {
                ended.push(number);
            }
        }
        for number in ended {
            self.sessions.remove(number);
        }
    }
}
