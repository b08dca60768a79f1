//! Says where the static library lies: crates/switch/out of the repository, or the folder named by SWITCH_DIR.

use std::env;

fn main() {
    let here = env::var("CARGO_MANIFEST_DIR").unwrap();
    let folder = env::var("SWITCH_DIR").unwrap_or(format!("{here}/../crates/switch/out"));
    println!("cargo:rustc-link-search=native={folder}");
    println!("cargo:rerun-if-env-changed=SWITCH_DIR");
    println!("cargo:rerun-if-changed={folder}/libswitch.a");
}
