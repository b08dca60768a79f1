// Not of the original. An included `map.rs` looks for its child beside itself; the child's text stands where the original has it.
include!("map/difference.rs");
