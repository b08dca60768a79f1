//! A host that knows only the installed library, which build.rs finds, and the module with safe types over it.

#[allow(dead_code)]
#[path = "../../../ksk.rs"]
mod ksk;

use ksk::Block;
use std::error::Error;

fn main() -> Result<(), Box<dyn Error>> {
    let mut block = Block::fresh(2016)?;
    block.insert(0, 0, 42, 10)?;
    let released = block.remove(1, 0, 42)?.unwrap_or(0);
    let (before, after) = (block.held(0)?, block.held(1)?);
    println!("call 42 has dropped: {released} minutes released, version 0 holds {before}, version 1 holds {after}");
    Ok(())
}
