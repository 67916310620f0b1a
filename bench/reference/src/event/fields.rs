//! The fields of an object, read one after the other.

use super::LineRefusal;
use crate::json::{Object, Value};
use crate::name::Name;

/// Reads the fields that a row names, from left to right, and then asks that there is no other.
pub struct Fields<'a> {
    object: &'a Object<'a>,
    taken: Vec<&'static str>,
}

impl<'a> Fields<'a> {
    pub fn new(object: &'a Object<'a>) -> Fields<'a> {
        Fields { object, taken: Vec::with_capacity(5) }
    }

    pub fn has(&self, key: &str) -> bool {
        self.object.iter().any(|(other, _)| other == key)
    }

    fn value(&mut self, key: &'static str) -> Result<&'a Value<'a>, LineRefusal> {
        self.taken.push(key);
        // Of a key that stands twice the last value counts.
        let found = self.object.iter().rev().find(|(other, _)| other == key);
        found.map(|(_, value)| value).ok_or(LineRefusal::MissingField)
    }

    pub fn text(&mut self, key: &'static str) -> Result<&'a str, LineRefusal> {
        match self.value(key)? {
            Value::Text(text) => Ok(text),
            _ => Err(LineRefusal::WrongKind),
        }
    }

    pub fn number(&mut self, key: &'static str) -> Result<u32, LineRefusal> {
        match self.value(key)? {
            Value::Whole(number) => u32::try_from(*number).map_err(|_| LineRefusal::WrongKind),
            _ => Err(LineRefusal::WrongKind),
        }
    }

    /// An array of a number of 64 bits and one of 32.
    pub fn two_numbers(&mut self, key: &'static str) -> Result<(u64, u32), LineRefusal> {
        let Value::List(items) = self.value(key)? else {
            return Err(LineRefusal::WrongKind);
        };
        match items[..] {
            [Value::Whole(first), Value::Whole(second)] => {
                let second = u32::try_from(second).map_err(|_| LineRefusal::WrongKind)?;
                Ok((first, second))
            }
            _ => Err(LineRefusal::WrongKind),
        }
    }

    pub fn object(&mut self, key: &'static str) -> Result<&'a Object<'a>, LineRefusal> {
        object(self.value(key)?)
    }

    /// An array of objects, of any length.
    pub fn objects(&mut self, key: &'static str) -> Result<Vec<&'a Object<'a>>, LineRefusal> {
        match self.value(key)? {
            Value::List(items) => items.iter().map(object).collect(),
            _ => Err(LineRefusal::WrongKind),
        }
    }

    pub fn name(&mut self, key: &'static str) -> Result<Name, LineRefusal> {
        Name::read(self.text(key)?).ok_or(LineRefusal::BadName)
    }

    /// An array of names. That each is a text comes before that each is a name.
    pub fn names(&mut self, key: &'static str) -> Result<Vec<Name>, LineRefusal> {
        let Value::List(items) = self.value(key)? else {
            return Err(LineRefusal::WrongKind);
        };
        let texts = items.iter().map(|item| match item {
            Value::Text(text) => Ok(text.as_ref()),
            _ => Err(LineRefusal::WrongKind),
        });
        let texts: Vec<&str> = texts.collect::<Result<_, _>>()?;
        texts.into_iter().map(|text| Name::read(text).ok_or(LineRefusal::BadName)).collect()
    }

    pub fn end(&self) -> Result<(), LineRefusal> {
        let is_known = |key: &str| self.taken.contains(&key);
        if self.object.iter().all(|(key, _)| is_known(key)) { Ok(()) } else { Err(LineRefusal::ExtraField) }
    }
}

fn object<'a>(value: &'a Value<'a>) -> Result<&'a Object<'a>, LineRefusal> {
    match value {
        Value::Object(object) => Ok(object),
        _ => Err(LineRefusal::WrongKind),
    }
}
