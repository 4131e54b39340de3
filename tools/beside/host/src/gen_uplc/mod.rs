//! The two modules of the Rust, unchanged, and the host's own modules beside them.

pub mod builder;
pub mod tree;

/// decision_tree.rs, entire. The names before it stand in for crates.
#[allow(dead_code, clippy::all)]
pub mod decision_tree {
    use crate::pretty;

    include!(concat!(env!("AIKEN_SRC"), "/gen_uplc/decision_tree.rs"));
}

/// interner.rs, entire.
#[allow(dead_code, clippy::all)]
pub mod interner {
    use crate::vec1;

    include!(concat!(env!("AIKEN_SRC"), "/gen_uplc/interner.rs"));
}
