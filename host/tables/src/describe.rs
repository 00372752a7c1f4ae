//! Descriptions: a schema, a document, variables and answers as trees, from which [`crate::build`]
//! makes tables.

/// Everything that a run is given.
#[derive(Debug, Clone, Default)]
pub struct Case {
    pub types: Vec<TypeDef>,
    /// The name of the root type.
    pub root: String,
    pub operation: Vec<Selection>,
    pub fragments: Vec<Fragment>,
    pub variables: Vec<(String, Json)>,
    /// The type name of the root's answer, which nothing looks at, and the fields it answers.
    pub answer: ObjectAnswer,
}

/// A type reference.
#[derive(Debug, Clone, PartialEq, Eq, Hash)]
pub struct Type {
    pub shape: Shape,
    pub non_null: bool,
}

#[derive(Debug, Clone, PartialEq, Eq, Hash)]
pub enum Shape {
    Named(String),
    List(Box<Type>),
}

impl Type {
    pub fn named(name: &str) -> Type {
        Type { shape: Shape::Named(name.into()), non_null: false }
    }

    pub fn list(inner: Type) -> Type {
        Type { shape: Shape::List(Box::new(inner)), non_null: false }
    }

    pub fn non_null(self) -> Type {
        Type { non_null: true, ..self }
    }

    /// The name under all lists.
    pub fn inner_name(&self) -> &str {
        match &self.shape {
            Shape::Named(name) => name,
            Shape::List(inner) => inner.inner_name(),
        }
    }
}

#[derive(Debug, Clone, Copy, PartialEq, Eq)]
pub enum Kind {
    Scalar,
    Enum,
    Object,
    Interface,
    Union,
    InputObject,
}

#[derive(Debug, Clone)]
pub struct TypeDef {
    pub name: String,
    pub kind: Kind,
    pub fields: Vec<FieldDef>,
    /// Values, members or interfaces, by the kind.
    pub members: Vec<String>,
}

#[derive(Debug, Clone)]
pub struct FieldDef {
    pub name: String,
    pub ty: Type,
    pub default: Option<Literal>,
    pub place: u32,
    pub arguments: Vec<ArgumentDef>,
}

#[derive(Debug, Clone)]
pub struct ArgumentDef {
    pub name: String,
    pub ty: Type,
    pub default: Option<Literal>,
    pub place: u32,
}

#[derive(Debug, Clone)]
pub struct Literal {
    pub value: LiteralValue,
    pub place: u32,
}

#[derive(Debug, Clone)]
pub enum LiteralValue {
    Null,
    Bool(bool),
    /// From -2^31 to 2^31 - 1.
    Int(i64),
    /// By its spelling.
    Float(String),
    String(String),
    List(Vec<Literal>),
    Object(Vec<(String, Literal)>),
    Enum(String),
    Variable(String),
}

#[derive(Debug, Clone)]
pub enum Json {
    Null,
    Bool(bool),
    /// From -2^63 to 2^64 - 1.
    Int(i128),
    /// By its spelling.
    Float(String),
    String(String),
    Array(Vec<Json>),
    Object(Vec<(String, Json)>),
}

#[derive(Debug, Clone, Default)]
pub enum Condition {
    #[default]
    None,
    Constant(bool),
    Variable(String),
}

#[derive(Debug, Clone)]
pub struct Selection {
    pub skip: Condition,
    pub include: Condition,
    pub place: u32,
    pub kind: SelectionKind,
}

#[derive(Debug, Clone)]
pub enum SelectionKind {
    Field(Field),
    Spread(String),
    Inline { condition: Option<String>, set: Vec<Selection> },
}

#[derive(Debug, Clone)]
pub struct Field {
    pub name: String,
    pub key: String,
    pub arguments: Vec<(String, Literal)>,
    /// `None` for a field without a child set, which differs from one with an empty set in a
    /// depth check's open sets only.
    pub set: Option<Vec<Selection>>,
    pub attached: Type,
}

#[derive(Debug, Clone)]
pub struct Fragment {
    pub name: String,
    pub condition: String,
    pub set: Vec<Selection>,
}

#[derive(Debug, Clone)]
pub enum Answer {
    Skip,
    Error,
    Leaf(Json),
    List(Vec<Answer>),
    Object(ObjectAnswer),
    Echo(String),
    /// An object of the given type name that answers as an object around it does: as the nearest
    /// for 0, and so on outwards. So answers lead back to earlier ones.
    Again {
        type_name: String,
        outwards: usize,
    },
}

#[derive(Debug, Clone, Default)]
pub struct ObjectAnswer {
    pub type_name: String,
    pub fields: Vec<(String, Answer)>,
}
