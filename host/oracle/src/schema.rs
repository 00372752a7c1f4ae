//! Schemas: the types by name, and the definition of a field on a type.

pub use crate::ast::{FieldDefinition, InputValueDefinition, Type};
use crate::collections::{IndexMap, IndexSet};
use crate::node::Node;
use crate::Name;
use std::sync::OnceLock;

pub struct Schema {
    pub schema_definition: SchemaDefinition,
    pub types: IndexMap<Name, ExtendedType>,
}

pub struct SchemaDefinition {
    /// Where `__schema` and `__type` can be asked for.
    pub query: Option<ComponentName>,
}

/// A name that an extension of the schema could have brought in.
pub struct ComponentName {
    pub name: Name,
}

pub enum ExtendedType {
    // The Rust's patterns have one field here; nothing is asked of it.
    #[allow(dead_code)]
    Scalar(Node<ScalarType>),
    Object(Node<ObjectType>),
    Interface(Node<InterfaceType>),
    Union(Node<UnionType>),
    Enum(Node<EnumType>),
    InputObject(Node<InputObjectType>),
}

pub struct ScalarType;

pub struct ObjectType {
    pub name: Name,
    pub implements_interfaces: IndexSet<Name>,
    pub fields: IndexMap<Name, Node<FieldDefinition>>,
}

pub struct InterfaceType {
    pub fields: IndexMap<Name, Node<FieldDefinition>>,
}

pub struct UnionType {
    pub members: IndexSet<Name>,
}

pub struct EnumType {
    pub values: IndexMap<Name, ()>,
}

pub struct InputObjectType {
    pub fields: IndexMap<Name, Node<InputValueDefinition>>,
}

/// The implementers of an interface: only introspection asks for them.
#[derive(Default)]
pub struct Implementers;

/// The type has no such field, or there is no such type.
#[derive(Debug)]
pub struct FieldLookupError;

impl Schema {
    pub fn get_object(&self, name: &str) -> Option<&Node<ObjectType>> {
        match self.types.get(name) {
            Some(ExtendedType::Object(object)) => Some(object),
            _ => None,
        }
    }

    /// A field's own definition: one of the type's, or `__typename` on whatever has selections.
    ///
    /// `__schema` and `__type` are left out, as document 01 leaves them: a document with either is
    /// not run (code 2).
    pub fn type_field(
        &self,
        type_name: &str,
        field_name: &str,
    ) -> Result<&Node<FieldDefinition>, FieldLookupError> {
        let defined = match self.types.get(type_name) {
            Some(ExtendedType::Object(object)) => object.fields.get(field_name),
            Some(ExtendedType::Interface(interface)) => interface.fields.get(field_name),
            Some(ExtendedType::Union(_)) => None,
            _ => return Err(FieldLookupError),
        };
        match defined {
            Some(definition) => Ok(definition),
            None if field_name == "__typename" => Ok(type_name_definition()),
            None => Err(FieldLookupError),
        }
    }
}

/// `__typename: String!`
fn type_name_definition() -> &'static Node<FieldDefinition> {
    static DEFINITION: OnceLock<Node<FieldDefinition>> = OnceLock::new();
    DEFINITION.get_or_init(|| {
        Node::new(FieldDefinition {
            arguments: Vec::new(),
            ty: Type::NonNullNamed(Name::new("String")),
        })
    })
}
