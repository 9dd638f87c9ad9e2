//! Links libplanner.a: from the folder PLANNER_LIB, else from target/staticlib at the repository's root.

use std::path::Path;
use std::{env, process};

fn main() {
    let here = env::var("CARGO_MANIFEST_DIR").unwrap();
    let folder = env::var("PLANNER_LIB").unwrap_or(format!("{here}/../../../target/staticlib"));
    println!("cargo:rerun-if-env-changed=PLANNER_LIB");
    println!("cargo:rerun-if-changed={folder}/libplanner.a");
    if !Path::new(&folder).join("libplanner.a").exists() {
        eprintln!("There is no libplanner.a in {folder}.");
        eprintln!("`tools/build library`, run at the repository's root, proves the planner and writes it to target/staticlib.");
        eprintln!("PLANNER_LIB names another folder that has it.");
        process::exit(1);
    }
    println!("cargo:rustc-link-search=native={folder}");
    println!("cargo:rustc-link-lib=static=planner");
}
