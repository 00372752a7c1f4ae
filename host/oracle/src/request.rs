//! The error of a request that is refused: here only a depth check's.

use crate::parser::SourceSpan;

#[derive(Debug, Clone)]
pub struct RequestError {
    // Set by the Rust; a depth check has one message and is never a suspected bug.
    #[allow(dead_code)]
    pub(crate) message: String,
    pub(crate) location: Option<SourceSpan>,
    #[allow(dead_code)]
    pub(crate) is_suspected_validation_bug: bool,
}
