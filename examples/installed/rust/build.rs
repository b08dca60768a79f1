//! Asks pkg-config where the installed library lies.

use std::process::Command;

fn main() {
    println!("cargo:rerun-if-env-changed=PKG_CONFIG_PATH");
    let asked = Command::new("pkg-config").args(["--libs", "ksk"]).output().expect("pkg-config runs");
    assert!(asked.status.success(), "{}", String::from_utf8_lossy(&asked.stderr));
    for word in String::from_utf8(asked.stdout).expect("paths are UTF-8").split_whitespace() {
        if let Some(folder) = word.strip_prefix("-L") {
            println!("cargo:rustc-link-search=native={folder}");
        } else if let Some(library) = word.strip_prefix("-l") {
            println!("cargo:rustc-link-lib=static={library}");
        }
    }
}
