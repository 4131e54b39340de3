//! The host's own: the makers of `AirTree` that the module names.

#[derive(Clone, Debug, PartialEq)]
pub enum AirTree {
    Bool { value: bool },
    Int { value: String },
    ByteArray { bytes: Vec<u8> },
}

impl AirTree {
    pub fn bool(value: bool) -> AirTree {
        AirTree::Bool { value }
    }

    pub fn int(value: impl ToString) -> AirTree {
        AirTree::Int { value: value.to_string() }
    }

    pub fn byte_array(bytes: Vec<u8>) -> AirTree {
        AirTree::ByteArray { bytes }
    }
}
