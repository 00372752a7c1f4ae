//! What the Rust's validation hands on: a mark of validity, which the oracle gives to everything
//! (document 01 admits documents that validation would refuse), and the error for what validation
//! should have caught.

use crate::parser::SourceSpan;
use std::ops::Deref;

/// A value taken as valid.
#[derive(Debug, Clone)]
pub struct Valid<T>(pub(crate) T);

impl<T> Deref for Valid<T> {
    type Target = T;

    fn deref(&self) -> &T {
        &self.0
    }
}

#[derive(Debug, Clone)]
pub(crate) struct SuspectedValidationBug {
    pub(crate) message: String,
    pub(crate) location: Option<SourceSpan>,
}

pub(crate) mod operation {
    pub(crate) const SKIP_DIRECTIVE_NAME: &str = "skip";
    pub(crate) const INCLUDE_DIRECTIVE_NAME: &str = "include";
}
