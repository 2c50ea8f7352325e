//! Links the proved library: libplanner.a in the folder that PLANNER_LIB_DIR names, else in build/ at the top of the repository.

use std::env;
use std::path::PathBuf;

/// How to make the archive.
const REMEDY: &str = "run make at the top of the planner's repository";

fn main() {
    println!("cargo::rerun-if-env-changed=PLANNER_LIB_DIR");
    let folder = match env::var_os("PLANNER_LIB_DIR") {
        Some(folder) => PathBuf::from(folder),
        None => PathBuf::from(env!("CARGO_MANIFEST_DIR")).join("../../build"),
    };
    let archive = folder.join("libplanner.a");
    println!("cargo::rerun-if-changed={}", archive.display());
    if !archive.exists() {
        println!("cargo::error={} is missing: {REMEDY}", archive.display());
        return;
    }
    println!("cargo::rustc-link-search=native={}", folder.display());
    println!("cargo::rustc-link-lib=static=planner");
}
