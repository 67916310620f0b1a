//! The operations, objects and permissions that a founding fixes.

use crate::name::Name;
use std::collections::HashMap;

/// Operations and objects are numbered in order of name, and permissions in order of operation and then object, so that a
/// set of permission numbers is walked in the order in which permissions are listed.
#[derive(Debug)]
pub struct Vocabulary {
    operations: HashMap<Name, usize>,
    objects: HashMap<Name, usize>,
    permissions: Vec<Permission>,
    permission_numbers: HashMap<(usize, usize), usize>,
}

#[derive(Clone, Debug)]
pub struct Permission {
    pub operation: Name,
    pub object: Name,
    object_number: usize,
}

impl Vocabulary {
    /// The vocabulary of these operations and objects, and of permissions that are pairs of both. Nothing stands twice.
    pub fn new(operations: Vec<Name>, objects: Vec<Name>, mut pairs: Vec<(Name, Name)>) -> Vocabulary {
        let operations = numbered(operations);
        let objects = numbered(objects);
        pairs.sort();
        let mut permissions = Vec::with_capacity(pairs.len());
        let mut permission_numbers = HashMap::new();
        for (operation, object) in pairs {
            let object_number = objects[&object];
            permission_numbers.insert((operations[&operation], object_number), permissions.len());
            permissions.push(Permission { operation, object, object_number });
        }
        Vocabulary { operations, objects, permissions, permission_numbers }
    }

    pub fn operation(&self, name: &Name) -> Option<usize> {
        self.operations.get(name).copied()
    }

    pub fn object(&self, name: &Name) -> Option<usize> {
        self.objects.get(name).copied()
    }

    /// The number of the permission of an operation and an object, where that pair is one.
    pub fn permission(&self, operation: usize, object: usize) -> Option<usize> {
        self.permission_numbers.get(&(operation, object)).copied()
    }

    pub fn permission_at(&self, number: usize) -> &Permission {
        &self.permissions[number]
    }
}

impl Permission {
    pub fn is_on(&self, object_number: usize) -> bool {
        self.object_number == object_number
    }
}

fn numbered(mut names: Vec<Name>) -> HashMap<Name, usize> {
    names.sort();
    names.into_iter().enumerate().map(|(number, name)| (name, number)).collect()
}
