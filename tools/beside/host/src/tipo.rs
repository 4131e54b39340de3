//! The host's own: types, as far as the module reads them.

use std::cell::RefCell;
use std::rc::Rc;

use indexmap::IndexMap;

use crate::ast::{DataTypeKey, TypedDataType};

#[derive(Clone, Debug)]
pub enum Type {
    App { module: String, name: String, args: Vec<Rc<Type>> },
    Fn { args: Vec<Rc<Type>>, ret: Rc<Type> },
    Var { tipo: Rc<RefCell<TypeVar>> },
    Tuple { elems: Vec<Rc<Type>> },
    Pair { fst: Rc<Type>, snd: Rc<Type> },
}

#[derive(Clone, Debug)]
pub enum TypeVar {
    Unbound { id: u64 },
    Link { tipo: Rc<Type> },
    Generic { id: u64 },
}

#[derive(Clone, Debug)]
pub enum PatternConstructor {
    Record { name: String },
}

impl Type {
    pub fn is_bool(&self) -> bool {
        match self {
            Type::App { module, name, .. } => name == "Bool" && module.is_empty(),
            Type::Var { tipo } => match &*tipo.borrow() {
                TypeVar::Link { tipo } => tipo.is_bool(),
                _ => false,
            },
            _ => false,
        }
    }

    pub fn arg_types(&self) -> Option<Vec<Rc<Type>>> {
        match self {
            Type::Fn { args, .. } | Type::App { args, .. } => Some(args.clone()),
            Type::Var { tipo } => match &*tipo.borrow() {
                TypeVar::Link { tipo } => tipo.arg_types(),
                _ => None,
            },
            _ => None,
        }
    }

    pub fn get_inner_types(&self) -> Vec<Rc<Type>> {
        match self {
            Type::App { args, .. } => args.clone(),
            Type::Fn { args, ret } => args.iter().chain([ret]).cloned().collect(),
            Type::Tuple { elems } => elems.clone(),
            Type::Pair { fst, snd } => vec![fst.clone(), snd.clone()],
            Type::Var { tipo } => match &*tipo.borrow() {
                TypeVar::Link { tipo } => tipo.get_inner_types(),
                _ => vec![],
            },
        }
    }
}

/// A data type by the name of a type, or of what a constructor's function returns.
pub fn lookup_data_type_by_tipo(
    data_types: &IndexMap<&DataTypeKey, &TypedDataType>,
    tipo: &Type,
) -> Option<TypedDataType> {
    match tipo {
        Type::Fn { ret, .. } => match ret.as_ref() {
            Type::App { .. } => lookup_data_type_by_tipo(data_types, ret),
            _ => None,
        },
        Type::App { module, name, .. } => {
            let key = DataTypeKey { module_name: module.clone(), defined_type: name.clone() };
            data_types.get(&key).map(|found| (*found).clone())
        }
        Type::Var { tipo } => match &*tipo.borrow() {
            TypeVar::Link { tipo } => lookup_data_type_by_tipo(data_types, tipo),
            _ => None,
        },
        _ => None,
    }
}
