//! The original tree files under the names that they use for each other.

#[allow(dead_code)]
pub mod map;

#[allow(dead_code)]
#[path = "../eqlog/eqlog-runtime/src/wbtree/set.rs"]
pub mod set;
