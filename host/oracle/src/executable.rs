//! Executable documents: selection sets with the field definition that each field is attached to.

use crate::ast::{Argument, DirectiveList, FieldDefinition, Type, VariableDefinition};
use crate::collections::IndexMap;
use crate::node::Node;
use crate::parser::SourceMap;
use crate::Name;

pub struct ExecutableDocument {
    pub sources: SourceMap,
    pub fragments: IndexMap<Name, Node<Fragment>>,
}

/// The operation that is run. Only its variables are read by the Rust, and only when they are
/// coerced, which is outside the port.
pub struct Operation {
    pub variables: Vec<Node<VariableDefinition>>,
    pub selection_set: SelectionSet,
}

pub struct Fragment {
    pub selection_set: SelectionSet,
}

impl Fragment {
    pub fn type_condition(&self) -> &Name {
        &self.selection_set.ty
    }
}

pub struct SelectionSet {
    /// The type that the set is on. Read for a fragment's, where it is the type condition.
    pub ty: Name,
    pub selections: Vec<Selection>,
}

pub enum Selection {
    Field(Node<Field>),
    FragmentSpread(Node<FragmentSpread>),
    InlineFragment(Node<InlineFragment>),
}

impl Selection {
    pub fn directives(&self) -> &DirectiveList {
        match self {
            Selection::Field(field) => &field.directives,
            Selection::FragmentSpread(spread) => &spread.directives,
            Selection::InlineFragment(inline) => &inline.directives,
        }
    }
}

pub struct Field {
    /// What the document was validated against: the home of the attached type.
    pub definition: Node<FieldDefinition>,
    pub alias: Option<Name>,
    pub name: Name,
    pub arguments: Vec<Node<Argument>>,
    pub directives: DirectiveList,
    pub selection_set: SelectionSet,
}

impl Field {
    pub fn response_key(&self) -> &Name {
        self.alias.as_ref().unwrap_or(&self.name)
    }

    /// The attached type.
    pub fn ty(&self) -> &Type {
        &self.definition.ty
    }
}

pub struct FragmentSpread {
    pub fragment_name: Name,
    pub directives: DirectiveList,
}

pub struct InlineFragment {
    pub type_condition: Option<Name>,
    pub directives: DirectiveList,
    pub selection_set: SelectionSet,
}
