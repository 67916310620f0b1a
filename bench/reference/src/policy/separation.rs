//! Static and dynamic separation of duty.

use super::{Changed, Policy, SeparationSet, require};
use crate::answer::Denial;
use crate::command::Separation;
use crate::limits;
use crate::name::Name;
use crate::number_set::NumberSet;
use std::collections::BTreeMap;

impl Policy {
    pub(super) fn create_set(&mut self, kind: Separation, set: &Name, roles: &[Name], n: u32) -> Changed {
        require(!self.sets(kind).contains_key(set), Denial::SetExists)?;
        let roles = self.numbers_of_roles(roles).ok_or(Denial::NoRole)?;
        let created = SeparationSet { roles, n };
        require(created.has_good_cardinality(), Denial::BadCardinality)?;
        self.require_kept(kind, &created)?;
        require(self.sets(kind).len() < limits::SETS, Denial::Limit)?;
        self.sets_mut(kind).insert(set.clone(), created);
        Ok(())
    }

    pub(super) fn delete_set(&mut self, kind: Separation, set: &Name) -> Changed {
        self.sets_mut(kind).remove(set).map(|_| ()).ok_or(Denial::NoSet)
    }

    pub(super) fn add_role_member(&mut self, kind: Separation, set: &Name, role: &Name) -> Changed {
        let old = self.set(kind, set)?;
        let role = self.role(role)?;
        let mut roles = old.roles.clone();
        require(roles.insert(role), Denial::InSet)?;
        let changed = SeparationSet { roles, n: old.n };
        self.require_kept(kind, &changed)?;
        self.sets_mut(kind).insert(set.clone(), changed);
        Ok(())
    }

    pub(super) fn delete_role_member(&mut self, kind: Separation, set: &Name, role: &Name) -> Changed {
        let old = self.set(kind, set)?;
        // A set has roles alone, so what is no role is not in it.
        let role = self.roles.number(role).ok_or(Denial::NotInSet)?;
        let mut roles = old.roles.clone();
        require(roles.remove(role), Denial::NotInSet)?;
        let changed = SeparationSet { roles, n: old.n };
        require(changed.has_good_cardinality(), Denial::BadCardinality)?;
        self.sets_mut(kind).insert(set.clone(), changed);
        Ok(())
    }

    pub(super) fn set_cardinality(&mut self, kind: Separation, set: &Name, n: u32) -> Changed {
        let old = self.set(kind, set)?;
        let changed = SeparationSet { roles: old.roles.clone(), n };
        require(changed.has_good_cardinality(), Denial::BadCardinality)?;
        self.require_kept(kind, &changed)?;
        self.sets_mut(kind).insert(set.clone(), changed);
        Ok(())
    }

    pub(super) fn set(&self, kind: Separation, set: &Name) -> Result<&SeparationSet, Denial> {
        self.sets(kind).get(set).ok_or(Denial::NoSet)
    }

    fn sets_mut(&mut self, kind: Separation) -> &mut BTreeMap<Name, SeparationSet> {
        match kind {
            Separation::Static => &mut self.static_sets,
            Separation::Dynamic => &mut self.dynamic_sets,
        }
    }

    pub(super) fn is_constrained(&self, role: usize) -> bool {
        let mut sets = self.static_sets.values().chain(self.dynamic_sets.values());
        sets.any(|set| set.roles.contains(role))
    }

    /// Denies a set that some user (of a static set) or some session (of a dynamic set) would break.
    fn require_kept(&self, kind: Separation, set: &SeparationSet) -> Changed {
        match kind {
            Separation::Static => {
                let broken = self.users.iter().any(|(user, _)| set.is_broken_by(&self.authorized_roles(user)));
                require(!broken, Denial::SsdViolated)
            }
            Separation::Dynamic => {
                let broken = self.sessions.values().any(|session| set.is_broken_by(&session.active));
                require(!broken, Denial::DsdViolated)
            }
        }
    }

    /// Whether the roles that the user is authorized for break a static set.
    pub(super) fn breaks_static_sets(&self, user: usize) -> bool {
        if self.static_sets.is_empty() {
            return false;
        }
        let authorized = self.authorized_roles(user);
        self.static_sets.values().any(|set| set.is_broken_by(&authorized))
    }

    /// Whether a session with these active roles breaks a dynamic set. Inherited roles are not counted.
    pub(super) fn breaks_dynamic_sets(&self, active: &NumberSet) -> bool {
        self.dynamic_sets.values().any(|set| set.is_broken_by(active))
    }
}

impl SeparationSet {
    fn has_good_cardinality(&self) -> bool {
        2 <= self.n && self.n as usize <= self.roles.len()
    }

    fn is_broken_by(&self, roles: &NumberSet) -> bool {
        self.roles.count_shared(roles) >= self.n as usize
    }
}
