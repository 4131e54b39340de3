//! The host's own: a clause's body, empty here, and the names that the module takes from `expr`.

pub use crate::tipo::{Type, TypeVar, lookup_data_type_by_tipo};

#[derive(Clone, Debug)]
pub struct TypedExpr;
