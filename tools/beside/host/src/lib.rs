//! A host in which decision_tree.rs and interner.rs of aiken-lang compile unchanged.
//!
//! Of the Rust itself, by `include!` from the folder named by AIKEN_SRC when this is built:
//! `gen_uplc::decision_tree` and `gen_uplc::interner`, entire. Real crates: itertools and indexmap.
//!
//! The host's own is all the rest, with just the names and fields that the two modules read:
//! - `ast`, `expr`, `tipo`: the types of patterns, clauses and types, cut down from the Rust's own
//!   of the same names; a clause's body is empty.
//! - `gen_uplc::builder::get_constr_index_variant`: finds a constructor's index by its name.
//! - `gen_uplc::tree::AirTree`: the three makers that `CaseTest::get_air_pattern` calls. Nothing
//!   here calls that in turn.
//! - `pretty` and `vec1`: stand-ins for the crates of these names. The first is used by `to_pretty`
//!   alone, which nothing here calls, and lays out nothing; the second is the interner's.

pub mod ast;
pub mod expr;
pub mod gen_uplc;
mod pretty;
pub mod tipo;
mod vec1;
