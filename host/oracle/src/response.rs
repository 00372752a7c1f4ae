//! Responses: JSON, paths, and errors as the Rust makes them.

use crate::json;
use crate::parser::{SourceMap, SourceSpan};
use crate::Name;

pub type JsonValue = json::Value;
pub type JsonMap = json::Map;

#[derive(Debug, Clone, PartialEq)]
pub enum ResponseDataPathSegment {
    Field(Name),
    ListIndex(usize),
}

#[derive(Debug, Clone)]
pub struct GraphQLError {
    pub message: String,
    pub locations: Vec<SourceSpan>,
    pub path: Vec<ResponseDataPathSegment>,
    pub extensions: JsonMap,
}

impl GraphQLError {
    pub fn new(
        message: impl Into<String>,
        location: Option<SourceSpan>,
        _sources: &SourceMap,
    ) -> Self {
        GraphQLError {
            message: message.into(),
            locations: location.into_iter().collect(),
            path: Vec::new(),
            extensions: JsonMap::new(),
        }
    }
}
