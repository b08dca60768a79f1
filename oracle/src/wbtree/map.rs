//! The text of the original `map.rs`, with one child module: only a child may look at private nodes.

include!("../../eqlog/eqlog-runtime/src/wbtree/map.rs");

pub mod look;
