//! Stands in for parser/identifier.rs: a name, and a path of names.

use std::fmt::{Display, Formatter, Result};

/// A name; "super" is the one that leads to the parent.
#[derive(Clone, Debug, PartialEq, Eq, Hash)]
pub struct Identifier(String);

impl Identifier {
    // A name of this text.
    pub fn new<S: Into<String>>(text: S) -> Self {
        Self(text.into())
    }

    // The name that leads to the parent.
    pub fn sup() -> Self {
        Self::new("super")
    }

    // Whether this is that name.
    pub fn is_super(&self) -> bool {
        self.0 == "super"
    }

    // The text.
    pub fn as_str(&self) -> &str {
        &self.0
    }
}

impl From<&str> for Identifier {
    fn from(text: &str) -> Self {
        Self::new(text)
    }
}

impl Display for Identifier {
    fn fmt(&self, f: &mut Formatter) -> Result {
        write!(f, "{}", self.0)
    }
}

/// Names, written with dots between them.
#[derive(Clone, Debug, PartialEq, Eq, Hash)]
pub struct IdentifierPath(Vec<Identifier>);

impl IdentifierPath {
    // A path of these names.
    pub fn new(ids: &[Identifier]) -> Self {
        Self(ids.to_vec())
    }

    // The path of no names.
    pub fn empty() -> Self {
        Self(vec![])
    }

    // Whether it has no names.
    pub fn is_empty(&self) -> bool {
        self.0.is_empty()
    }

    // Whether one of the names is "super".
    pub fn contains_super(&self) -> bool {
        self.0.iter().any(Identifier::is_super)
    }

    // This path, then the other.
    pub fn join<I: Into<IdentifierPath>>(&self, other: I) -> IdentifierPath {
        Self([self.0.clone(), other.into().0].concat())
    }

    // Takes the first name off.
    pub fn pop_front(&mut self) -> Option<Identifier> {
        (!self.is_empty()).then(|| self.0.remove(0))
    }

    // All names but the last, and the last.
    pub fn split(mut self) -> (IdentifierPath, Identifier) {
        let last = self.0.pop().unwrap();
        (self, last)
    }
}

impl From<Identifier> for IdentifierPath {
    fn from(id: Identifier) -> Self {
        Self(vec![id])
    }
}

impl From<&Identifier> for IdentifierPath {
    fn from(id: &Identifier) -> Self {
        id.clone().into()
    }
}

impl From<&IdentifierPath> for IdentifierPath {
    fn from(path: &IdentifierPath) -> Self {
        path.clone()
    }
}

impl From<&str> for IdentifierPath {
    fn from(text: &str) -> Self {
        let names = text.split('.').filter(|name| !name.is_empty());
        Self(names.map(Identifier::new).collect())
    }
}

impl Display for IdentifierPath {
    fn fmt(&self, f: &mut Formatter) -> Result {
        let names: Vec<&str> = self.0.iter().map(Identifier::as_str).collect();
        write!(f, "{}", names.join("."))
    }
}
