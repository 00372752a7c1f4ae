//! From the tables to the Rust's own values: schema, document, operation, variables.

use crate::ast::{
    Argument, Directive, DirectiveList, FieldDefinition, InputValueDefinition, NumberText, Type,
    Value,
};
use crate::executable::{
    ExecutableDocument, Field, Fragment, FragmentSpread, InlineFragment, Operation, Selection,
    SelectionSet,
};
use crate::json;
use crate::node::Node;
use crate::parser::SourceMap;
use crate::response::{JsonMap, JsonValue};
use crate::schema::{
    ComponentName, EnumType, ExtendedType, InputObjectType, InterfaceType, ObjectType, ScalarType,
    Schema, SchemaDefinition, UnionType,
};
use crate::validation::operation::{INCLUDE_DIRECTIVE_NAME, SKIP_DIRECTIVE_NAME};
use crate::validation::Valid;
use crate::Name;
use tables::layout::type_kind;
use tables::rows::{self, Condition, Range, SelectionKind, SelectionRow, Shape, TypeRow};
use tables::Tables;

/// What the Rust is run on.
pub(crate) struct Translated {
    pub(crate) schema: Valid<Schema>,
    pub(crate) document: Valid<ExecutableDocument>,
    pub(crate) operation: Operation,
    pub(crate) variables: Valid<JsonMap>,
}

/// Translates tables that break no rule.
pub(crate) fn translate(tables: &Tables) -> Translated {
    let names = (0..tables.name_count()).map(|number| Name::new(tables.name(number))).collect();
    let translator = Translator { tables, names };
    Translated {
        schema: Valid(translator.schema()),
        document: Valid(translator.document()),
        operation: translator.operation(),
        variables: Valid(translator.variables()),
    }
}

struct Translator<'t> {
    tables: &'t Tables,
    names: Vec<Name>,
}

impl Translator<'_> {
    fn name(&self, number: u32) -> Name {
        self.names[number as usize].clone()
    }

    fn schema(&self) -> Schema {
        let rows = (0..self.tables.type_count()).map(|row| self.tables.type_row(row));
        let types = rows.map(|row| (self.name(row.name), self.type_definition(row))).collect();
        let root = self.name(self.tables.type_row(self.tables.root).name);
        let schema_definition = SchemaDefinition { query: Some(ComponentName { name: root }) };
        Schema { schema_definition, types }
    }

    fn type_definition(&self, row: TypeRow) -> ExtendedType {
        let members = || row.members.rows().map(|member| self.name(self.tables.member(member)));
        match row.kind {
            type_kind::SCALAR => ExtendedType::Scalar(Node::new(ScalarType)),
            type_kind::ENUM => {
                let values = members().map(|value| (value, ())).collect();
                ExtendedType::Enum(Node::new(EnumType { values }))
            }
            type_kind::OBJECT => ExtendedType::Object(Node::new(ObjectType {
                name: self.name(row.name),
                implements_interfaces: members().collect(),
                fields: row.fields.rows().map(|field| self.output_field(field)).collect(),
            })),
            // No rule reads which interfaces an interface implements.
            type_kind::INTERFACE => ExtendedType::Interface(Node::new(InterfaceType {
                fields: row.fields.rows().map(|field| self.output_field(field)).collect(),
            })),
            type_kind::UNION => {
                ExtendedType::Union(Node::new(UnionType { members: members().collect() }))
            }
            _ => {
                let fields = row.fields.rows().map(|field| self.input_field(field)).collect();
                ExtendedType::InputObject(Node::new(InputObjectType { fields }))
            }
        }
    }

    fn output_field(&self, row: u32) -> (Name, Node<FieldDefinition>) {
        let field = self.tables.field(row);
        let definition = FieldDefinition {
            arguments: field.arguments.rows().map(|argument| self.argument(argument)).collect(),
            ty: self.ty(field.type_ref),
        };
        (self.name(field.name), Node::at(field.place, definition))
    }

    fn input_field(&self, row: u32) -> (Name, Node<InputValueDefinition>) {
        let field = self.tables.field(row);
        let value = self.input_value(field.name, field.type_ref, field.default);
        (self.name(field.name), Node::at(field.place, value))
    }

    fn argument(&self, row: u32) -> Node<InputValueDefinition> {
        let argument = self.tables.argument(row);
        let value = self.input_value(argument.name, argument.type_ref, argument.default);
        Node::at(argument.place, value)
    }

    fn input_value(&self, name: u32, type_ref: u32, default: Option<u32>) -> InputValueDefinition {
        InputValueDefinition {
            name: self.name(name),
            ty: Node::new(self.ty(type_ref)),
            default_value: default.map(|literal| self.literal(literal)),
        }
    }

    fn ty(&self, row: u32) -> Type {
        let type_ref = self.tables.type_ref(row);
        match (type_ref.shape, type_ref.non_null) {
            (Shape::Named(name), false) => Type::Named(self.name(name)),
            (Shape::Named(name), true) => Type::NonNullNamed(self.name(name)),
            (Shape::List(inner), false) => Type::List(Box::new(self.ty(inner))),
            (Shape::List(inner), true) => Type::NonNullList(Box::new(self.ty(inner))),
        }
    }

    fn literal(&self, row: u32) -> Node<Value> {
        let value = match self.tables.literal(row) {
            rows::Value::Null => Value::Null,
            rows::Value::Bool(value) => Value::Boolean(value),
            rows::Value::Unsigned(value) => Value::Int(NumberText(value.to_string())),
            rows::Value::Negative(magnitude) => Value::Int(NumberText(format!("-{magnitude}"))),
            rows::Value::Float(span) => Value::Float(NumberText(self.tables.text(span).into())),
            rows::Value::String(span) => Value::String(self.tables.text(span).into()),
            rows::Value::List(range) => {
                Value::List(range.rows().map(|item| self.literal(item)).collect())
            }
            rows::Value::Object(range) => Value::Object(
                range
                    .rows()
                    .map(|entry| (self.name(self.tables.literal_key(entry)), self.literal(entry)))
                    .collect(),
            ),
            rows::Value::Enum(name) => Value::Enum(self.name(name)),
            rows::Value::Variable(name) => Value::Variable(self.name(name)),
        };
        Node::at(self.tables.literal_place(row), value)
    }

    fn operation(&self) -> Operation {
        let root = self.tables.type_row(self.tables.root).name;
        Operation { variables: Vec::new(), selection_set: self.set(self.name(root), 0) }
    }

    fn document(&self) -> ExecutableDocument {
        let fragments = (0..self.tables.fragment_count())
            .map(|row| {
                let fragment = self.tables.fragment(row);
                let selection_set = self.set(self.name(fragment.condition), fragment.set);
                (self.name(fragment.name), Node::new(Fragment { selection_set }))
            })
            .collect();
        ExecutableDocument { sources: SourceMap, fragments }
    }

    fn set(&self, ty: Name, set: u32) -> SelectionSet {
        let rows = self.tables.set(set).rows();
        let selections = rows.map(|row| self.selection(&ty, self.tables.selection(row))).collect();
        SelectionSet { ty, selections }
    }

    fn selection(&self, around: &Name, row: SelectionRow) -> Selection {
        let directives = self.directives(&row);
        match row.kind {
            SelectionKind::Field { name, key, given, set, attached } => {
                let ty = self.ty(attached);
                let field = Field {
                    alias: (key != name).then(|| self.name(key)),
                    name: self.name(name).at(row.place),
                    arguments: self.given(given),
                    directives,
                    selection_set: self.child_set(&ty, set),
                    definition: Node::new(FieldDefinition { arguments: Vec::new(), ty }),
                };
                Selection::Field(Node::at(row.place, field))
            }
            SelectionKind::Spread { fragment } => {
                let spread = FragmentSpread { fragment_name: self.name(fragment), directives };
                Selection::FragmentSpread(Node::at(row.place, spread))
            }
            SelectionKind::Inline { condition, set } => {
                let type_condition = condition.map(|name| self.name(name));
                let ty = type_condition.clone().unwrap_or_else(|| around.clone());
                let selection_set = self.set(ty, set);
                let inline = InlineFragment { type_condition, directives, selection_set };
                Selection::InlineFragment(Node::at(row.place, inline))
            }
        }
    }

    /// A field without a child set has an empty one.
    fn child_set(&self, attached: &Type, set: Option<u32>) -> SelectionSet {
        let ty = inner_name(attached).clone();
        match set {
            Some(set) => self.set(ty, set),
            None => SelectionSet { ty, selections: Vec::new() },
        }
    }

    fn given(&self, range: Range) -> Vec<Node<Argument>> {
        let arguments = range.rows().map(|row| {
            let (name, literal) = self.tables.given_argument(row);
            Node::new(Argument { name: self.name(name), value: self.literal(literal) })
        });
        arguments.collect()
    }

    fn directives(&self, row: &SelectionRow) -> DirectiveList {
        let named = [(SKIP_DIRECTIVE_NAME, row.skip), (INCLUDE_DIRECTIVE_NAME, row.include)];
        let directives = named.into_iter().filter_map(|(name, condition)| {
            let value = match condition {
                Condition::None => return None,
                Condition::Constant(value) => Value::Boolean(value),
                Condition::Variable(name) => Value::Variable(self.name(name)),
            };
            let argument = Argument { name: Name::new("if"), value: Node::new(value) };
            let arguments = vec![Node::new(argument)];
            Some(Node::new(Directive { name: Name::new(name), arguments }))
        });
        DirectiveList(directives.collect())
    }

    fn variables(&self) -> JsonMap {
        let mut variables = JsonMap::new();
        for row in 0..self.tables.variable_count() {
            let (name, node) = self.tables.variable(row);
            variables.insert(self.tables.name(name), node_value(self.tables, node));
        }
        variables
    }
}

fn inner_name(ty: &Type) -> &Name {
    match ty {
        Type::Named(name) | Type::NonNullNamed(name) => name,
        Type::List(inner) | Type::NonNullList(inner) => inner_name(inner),
    }
}

/// A JSON node as a value.
pub(crate) fn node_value(tables: &Tables, row: u32) -> JsonValue {
    match tables.node(row) {
        rows::Value::Null => JsonValue::Null,
        rows::Value::Bool(value) => JsonValue::Bool(value),
        rows::Value::Unsigned(value) => JsonValue::Number(json::Number::Unsigned(value)),
        rows::Value::Negative(magnitude) => {
            JsonValue::Number(json::Number::Negative(magnitude.wrapping_neg() as i64))
        }
        rows::Value::Float(span) => {
            JsonValue::Number(json::Number::Float(tables.text(span).into()))
        }
        rows::Value::String(span) => JsonValue::String(tables.text(span).into()),
        rows::Value::List(range) => range.rows().map(|item| node_value(tables, item)).collect(),
        rows::Value::Object(range) => range
            .rows()
            .map(|entry| (tables.text(tables.node_key(entry)), node_value(tables, entry)))
            .collect(),
        rows::Value::Enum(_) | rows::Value::Variable(_) => unreachable!("only literals are these"),
    }
}
