//! Says where the static library `ne` is.
//!
//! The folder is the environment's `NE_LIB_DIR`, or else the repository's
//! `target/staticlib`. A relative path is taken from the folder that the user
//! stands in, or from the repository's top if that has no library there.

use std::env;
use std::path::PathBuf;

const LIBRARY: &str = "libne.a";

/// The repository's top, from the package.
const TOP: &str = "../..";

fn main() {
    println!("cargo:rerun-if-env-changed=NE_LIB_DIR");
    let folders = folders();
    let found = folders.iter().find(|folder| folder.join(LIBRARY).is_file());
    if found.is_none() {
        // Checking without linking is still possible.
        for folder in &folders {
            println!(
                "cargo:warning={} is missing",
                folder.join(LIBRARY).display()
            );
        }
    }
    let folder = found.unwrap_or(&folders[0]);
    println!("cargo:rerun-if-changed={}", folder.join(LIBRARY).display());
    println!("cargo:rustc-link-search=native={}", folder.display());
    println!("cargo:rustc-link-lib=static=ne");
}

/// The folders in which the library is looked for, one after the other.
fn folders() -> Vec<PathBuf> {
    let variable = |name| PathBuf::from(env::var_os(name).unwrap_or_default());
    let top = variable("CARGO_MANIFEST_DIR").join(TOP);
    let said = variable("NE_LIB_DIR");
    if said.as_os_str().is_empty() {
        vec![top.join("target/staticlib")]
    } else if said.is_absolute() {
        vec![said]
    } else {
        println!("cargo:rerun-if-env-changed=PWD");
        vec![variable("PWD").join(&said), top.join(&said)]
    }
}
