//! Names: a shared text with the place it stands at. Two names are equal if their texts are.

use crate::parser::SourceSpan;
use std::borrow::Borrow;
use std::fmt;
use std::hash::{Hash, Hasher};
use std::ops::Deref;
use std::sync::Arc;

#[derive(Clone)]
pub struct Name {
    text: Arc<str>,
    location: Option<SourceSpan>,
}

impl Name {
    pub fn new(text: &str) -> Self {
        Name { text: text.into(), location: None }
    }

    pub fn at(&self, place: u32) -> Self {
        Name { text: self.text.clone(), location: Some(SourceSpan { place }) }
    }

    pub fn as_str(&self) -> &str {
        &self.text
    }

    pub fn location(&self) -> Option<SourceSpan> {
        self.location
    }
}

impl Deref for Name {
    type Target = str;

    fn deref(&self) -> &str {
        &self.text
    }
}

impl Borrow<str> for Name {
    fn borrow(&self) -> &str {
        &self.text
    }
}

impl PartialEq for Name {
    fn eq(&self, other: &Self) -> bool {
        self.text == other.text
    }
}

impl Eq for Name {}

impl PartialEq<str> for Name {
    fn eq(&self, other: &str) -> bool {
        *self.text == *other
    }
}

/// As the text hashes, so that a map of names can be asked for a text.
impl Hash for Name {
    fn hash<H: Hasher>(&self, state: &mut H) {
        self.text.hash(state)
    }
}

impl fmt::Display for Name {
    fn fmt(&self, f: &mut fmt::Formatter<'_>) -> fmt::Result {
        f.write_str(&self.text)
    }
}

impl fmt::Debug for Name {
    fn fmt(&self, f: &mut fmt::Formatter<'_>) -> fmt::Result {
        fmt::Debug::fmt(&*self.text, f)
    }
}
