//! A shared value with the place it stands at.

use crate::parser::SourceSpan;
use std::fmt;
use std::ops::Deref;
use std::sync::Arc;

pub struct Node<T>(Arc<Located<T>>);

struct Located<T> {
    location: Option<SourceSpan>,
    value: T,
}

impl<T> Node<T> {
    pub fn new(value: T) -> Self {
        Node(Arc::new(Located { location: None, value }))
    }

    pub fn at(place: u32, value: T) -> Self {
        Node(Arc::new(Located { location: Some(SourceSpan { place }), value }))
    }

    pub fn location(&self) -> Option<SourceSpan> {
        self.0.location
    }
}

impl<T> Clone for Node<T> {
    fn clone(&self) -> Self {
        Node(self.0.clone())
    }
}

impl<T> Deref for Node<T> {
    type Target = T;

    fn deref(&self) -> &T {
        &self.0.value
    }
}

impl<T> AsRef<T> for Node<T> {
    fn as_ref(&self) -> &T {
        &self.0.value
    }
}

impl<T: fmt::Display> fmt::Display for Node<T> {
    fn fmt(&self, f: &mut fmt::Formatter<'_>) -> fmt::Result {
        self.0.value.fmt(f)
    }
}
