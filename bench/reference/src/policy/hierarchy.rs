//! The declared pairs of ascendant and descendant, and what is found by search over them.

use super::{Changed, HierarchyKind, Policy, Role, require};
use crate::answer::Denial;
use crate::name::Name;
use crate::number_set::NumberSet;

impl Policy {
    pub(super) fn add_inheritance(&mut self, ascendant: &Name, descendant: &Name) -> Changed {
        let ascendant = self.role(ascendant)?;
        let descendant = self.role(descendant)?;
        require(!self.roles.get(ascendant).descendants.contains(descendant), Denial::Inherits)?;
        require(!self.juniors_of(descendant).contains(ascendant), Denial::Cycle)?;
        self.require_no_descendant(ascendant)?;
        self.declare(ascendant, descendant);
        if self.users.iter().any(|(user, _)| self.breaks_static_sets(user)) {
            self.retract(ascendant, descendant);
            return Err(Denial::SsdViolated);
        }
        Ok(())
    }

    pub(super) fn delete_inheritance(&mut self, ascendant: &Name, descendant: &Name) -> Changed {
        let ascendant = self.role(ascendant)?;
        let descendant = self.role(descendant)?;
        require(self.roles.get(ascendant).descendants.contains(descendant), Denial::NoInheritance)?;
        self.retract(ascendant, descendant);
        self.purge();
        Ok(())
    }

    pub(super) fn add_ascendant(&mut self, ascendant: &Name, descendant: &Name) -> Changed {
        require(self.roles.number(ascendant).is_none(), Denial::RoleExists)?;
        let descendant = self.role(descendant)?;
        let ascendant = self.new_role(ascendant)?;
        self.declare(ascendant, descendant);
        Ok(())
    }

    pub(super) fn add_descendant(&mut self, ascendant: &Name, descendant: &Name) -> Changed {
        require(self.roles.number(descendant).is_none(), Denial::RoleExists)?;
        let ascendant = self.role(ascendant)?;
        self.require_no_descendant(ascendant)?;
        let descendant = self.new_role(descendant)?;
        self.declare(ascendant, descendant);
        Ok(())
    }

    /// Under a limited hierarchy a role is the ascendant of one pair at most. A new role is that of none.
    fn require_no_descendant(&self, ascendant: usize) -> Changed {
        let is_free = self.kind == HierarchyKind::General || self.roles.get(ascendant).descendants.is_empty();
        require(is_free, Denial::Limited)
    }

    fn declare(&mut self, ascendant: usize, descendant: usize) {
        self.roles.get_mut(ascendant).descendants.insert(descendant);
        self.roles.get_mut(descendant).ascendants.insert(ascendant);
    }

    fn retract(&mut self, ascendant: usize, descendant: usize) {
        self.roles.get_mut(ascendant).descendants.remove(descendant);
        self.roles.get_mut(descendant).ascendants.remove(ascendant);
    }

    /// The role and all that it inherits from.
    pub(super) fn juniors_of(&self, role: usize) -> NumberSet {
        self.all_juniors(&[role].into_iter().collect())
    }

    /// The roles and all that they inherit from.
    pub(super) fn all_juniors(&self, roles: &NumberSet) -> NumberSet {
        self.search(roles, |role| &role.descendants)
    }

    /// The role and all that inherit from it.
    pub(super) fn seniors_of(&self, role: usize) -> NumberSet {
        self.search(&[role].into_iter().collect(), |role| &role.ascendants)
    }

    /// The roles that are reached from these over declared pairs, these among them.
    fn search(&self, roles: &NumberSet, next: impl Fn(&Role) -> &NumberSet) -> NumberSet {
        let mut found = roles.clone();
        let mut waiting: Vec<usize> = roles.iter().collect();
        while let Some(role) = waiting.pop() {
            for neighbour in next(self.roles.get(role)).iter() {
                if found.insert(neighbour) {
                    waiting.push(neighbour);
                }
            }
        }
        found
    }

    /// The roles that a user is authorized for: the assigned ones and all that they inherit from.
    pub(super) fn authorized_roles(&self, user: usize) -> NumberSet {
        self.all_juniors(&self.users.get(user).assigned)
    }
}
