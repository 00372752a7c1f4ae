//! What a resolver is given and gives back, and the start of a run.
//!
//! The oracle's resolvers are all of the synchronous kind; the asynchronous one stands here
//! because the Rust's signatures name it.

use crate::collections::HashMap;
use crate::executable::{ExecutableDocument, Field, Operation};
use crate::response::{GraphQLError, JsonMap, JsonValue};
use crate::schema::{Implementers, ObjectType, Schema};
use crate::validation::Valid;
use crate::Name;
use execution::{execute_selection_set, ExecutionContext, ExecutionMode, MaybeLazy};
use futures::future::BoxFuture;
use futures::stream::BoxStream;
use std::sync::OnceLock;

// `execution`, `input_coercion` and `result_coercion`, compiled where they lie.
include!(concat!(env!("OUT_DIR"), "/resolvers.rs"));

#[derive(Clone, Copy)]
pub(crate) enum MaybeAsync<A, S> {
    #[allow(dead_code)]
    Async(A),
    Sync(S),
}

pub(crate) type MaybeAsyncObject<'a> = MaybeAsync<&'a dyn AsyncObjectValue, &'a dyn ObjectValue>;
pub(crate) type MaybeAsyncResolved<'a> = MaybeAsync<AsyncResolvedValue<'a>, ResolvedValue<'a>>;

impl MaybeAsync<Box<dyn AsyncObjectValue + '_>, Box<dyn ObjectValue + '_>> {
    pub(crate) fn type_name(&self) -> &str {
        match self {
            MaybeAsync::Async(object) => object.type_name(),
            MaybeAsync::Sync(object) => object.type_name(),
        }
    }
}

/// What a resolver may look at.
pub struct ResolveInfo<'a> {
    #[allow(dead_code)]
    pub(crate) schema: &'a Valid<Schema>,
    #[allow(dead_code)]
    pub(crate) implementers_map: MaybeLazy<'a, HashMap<Name, Implementers>>,
    #[allow(dead_code)]
    pub(crate) document: &'a Valid<ExecutableDocument>,
    pub(crate) fields: &'a [&'a Field],
    pub(crate) arguments: &'a JsonMap,
}

impl<'a> ResolveInfo<'a> {
    pub fn field_name(&self) -> &'a str {
        &self.fields[0].name
    }

    /// The coerced arguments.
    pub fn arguments(&self) -> &'a JsonMap {
        self.arguments
    }
}

pub struct FieldError {
    pub message: String,
}

/// An object that answers its fields.
pub trait ObjectValue {
    fn type_name(&self) -> &str;

    fn resolve_field<'a>(
        &'a self,
        info: &'a ResolveInfo<'a>,
    ) -> Result<ResolvedValue<'a>, FieldError>;
}

/// An object that answers its fields in its own time.
pub trait AsyncObjectValue: Send {
    fn type_name(&self) -> &str;

    fn resolve_field<'a>(
        &'a self,
        info: &'a ResolveInfo<'a>,
    ) -> BoxFuture<'a, Result<AsyncResolvedValue<'a>, FieldError>>;
}

pub enum ResolvedValue<'a> {
    Leaf(JsonValue),
    Object(Box<dyn ObjectValue + 'a>),
    List(Box<dyn Iterator<Item = Result<Self, FieldError>> + 'a>),
    SkipForPartialExecution,
}

impl<'a> ResolvedValue<'a> {
    pub fn leaf(json: impl Into<JsonValue>) -> Self {
        ResolvedValue::Leaf(json.into())
    }

    pub fn object(object: impl ObjectValue + 'a) -> Self {
        ResolvedValue::Object(Box::new(object))
    }
}

/// Never made here.
#[allow(dead_code)]
pub enum AsyncResolvedValue<'a> {
    Leaf(JsonValue),
    Object(Box<dyn AsyncObjectValue + 'a>),
    List(BoxStream<'a, Result<Self, FieldError>>),
    SkipForPartialExecution,
}

/// Runs an operation from its root type in document order: the data, `None` where a failure went
/// up to the root, and the errors as they were recorded.
pub(crate) fn execute(
    schema: &Valid<Schema>,
    document: &Valid<ExecutableDocument>,
    operation: &Operation,
    variable_values: &Valid<JsonMap>,
    root_type: &ObjectType,
    root: &dyn ObjectValue,
) -> (Option<JsonMap>, Vec<GraphQLError>) {
    let mut errors = Vec::new();
    let implementers = OnceLock::new();
    let mut context = ExecutionContext {
        schema,
        document,
        variable_values,
        errors: &mut errors,
        implementers_map: MaybeLazy::Lazy(&implementers),
        enable_schema_introspection: false,
    };
    let run = execute_selection_set(
        &mut context,
        None,
        ExecutionMode::Normal,
        root_type,
        MaybeAsync::Sync(root),
        &operation.selection_set.selections,
    );
    let data = futures::future::now_or_never(run).expect("synchronous resolvers are never pending");
    (data.ok(), errors)
}

