//! The host's own: the one function of `builder` that the module calls. It is not among the sources.

use std::rc::Rc;

use crate::ast::{RecordConstructor, TypedDataType};
use crate::tipo::Type;

/// A constructor's index in its type, found by name, and the constructor.
pub fn get_constr_index_variant<'a>(
    data_type: &'a TypedDataType,
    constr_name: &str,
) -> Option<(usize, &'a RecordConstructor<Rc<Type>>)> {
    data_type.constructors.iter().enumerate().find(|(_, dt)| dt.name == constr_name)
}
