//! The host's own: patterns, clauses and data types, as far as the module reads them.

use std::rc::Rc;

use crate::expr::TypedExpr;
use crate::tipo::{PatternConstructor, Type};

#[derive(Clone, Debug)]
pub enum Pattern<Constructor, Type, ByteValue> {
    Int { value: String },
    ByteArray { value: Vec<ByteValue> },
    Var { name: String },
    Assign { name: String, pattern: Box<Self> },
    Discard { name: String },
    List { elements: Vec<Self>, tail: Option<Box<Self>> },
    Constructor { arguments: Vec<CallArg<Self>>, constructor: Constructor, tipo: Type },
    Pair { fst: Box<Self>, snd: Box<Self> },
    Tuple { elems: Vec<Self> },
}

pub type TypedPattern = Pattern<PatternConstructor, Rc<Type>, u8>;

#[derive(Clone, Debug)]
pub struct CallArg<A> {
    pub value: A,
}

#[derive(Clone, Debug)]
pub struct TypedClause {
    pub pattern: TypedPattern,
    pub then: TypedExpr,
}

#[derive(Clone, Debug, PartialEq, Eq, Hash)]
pub struct DataTypeKey {
    pub module_name: String,
    pub defined_type: String,
}

#[derive(Clone, Debug)]
pub enum DecoratorKind {
    Tag { value: usize },
    List,
}

#[derive(Clone, Debug)]
pub struct Decorator {
    pub kind: DecoratorKind,
}

#[derive(Clone, Debug)]
pub struct RecordConstructor<T> {
    pub name: String,
    pub arguments: Vec<RecordConstructorArg<T>>,
}

#[derive(Clone, Debug)]
pub struct RecordConstructorArg<T> {
    pub tipo: T,
}

#[derive(Clone, Debug)]
pub struct DataType<T> {
    pub decorators: Vec<Decorator>,
    pub constructors: Vec<RecordConstructor<T>>,
    pub name: String,
    pub opaque: bool,
}

pub type TypedDataType = DataType<Rc<Type>>;

impl TypedDataType {
    /// No type that the host makes has this name.
    pub fn is_never(&self) -> bool {
        self.name == "Never"
    }
}
