//! The depth check of introspection, and stand-ins for its resolvers.

use crate::collections::HashMap;
use crate::executable::{ExecutableDocument, SelectionSet};
use crate::request::RequestError;
use crate::validation::Valid;

// `max_depth`, compiled where it lies.
include!(concat!(env!("OUT_DIR"), "/introspection.rs"));

/// The depth that `max_depth.rs` finds for an operation, from the first set on.
pub(crate) fn max_depth(
    document: &Valid<ExecutableDocument>,
    operation: &SelectionSet,
) -> Result<u32, RequestError> {
    max_depth::check_selection_set(document, &mut HashMap::default(), 0, operation)
}

/// The resolvers of `__schema` and `__type`. `execution.rs` names them; no run reaches them, since
/// a document that asks for either field is refused before (code 2).
pub(crate) mod resolvers {
    use crate::resolvers::{FieldError, ObjectValue, ResolveInfo, ResolvedValue};

    pub(crate) struct SchemaMetaField;

    impl ObjectValue for SchemaMetaField {
        fn type_name(&self) -> &str {
            "__Schema"
        }

        fn resolve_field<'a>(
            &'a self,
            _: &'a ResolveInfo<'a>,
        ) -> Result<ResolvedValue<'a>, FieldError> {
            unreachable!("__schema is not run")
        }
    }

    pub(crate) fn type_def<'a>(_: &'a ResolveInfo<'a>, _: &str) -> ResolvedValue<'a> {
        unreachable!("__type is not run")
    }
}
