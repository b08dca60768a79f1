//! The original Rust, document 01 in plain Rust, and the exported calls, side by side.

pub mod batch;
pub mod block;
pub mod call;
pub mod exports;
pub mod fast;
pub mod frame;
pub mod history;
pub mod kiosk;
pub mod ledger;
pub mod original;
pub mod parts;
pub mod plain;
pub mod random;
pub mod request;
pub mod restore;
pub mod rules;
pub mod sound;
pub mod table;
pub mod walk;
pub mod wbtree;

#[path = "../audit/passes.rs"]
pub mod passes;

#[path = "../audit/sizes.rs"]
pub mod sizes;

#[allow(dead_code)]
#[path = "../eqlog/eqlog-runtime/src/prefix_tree.rs"]
pub mod prefix_tree;
pub use prefix_tree::PrefixTree2;

/// The original names two types of its crate that meter mapped trees. The table has no mapped trees, so they only have to exist.
pub struct Error;
pub struct Fuel;

impl Fuel {
    pub fn consume(&mut self, _steps: u64) -> Result<(), Error> {
        Ok(())
    }
}
