//! With the feature `library`: links libhub.a from the directory in SNOWPLOUGHY_LIBRARY, or else libhub_c.a, the same archive under its
//! crate's name, from ../crates/hub_c/out.

use std::env;
use std::path::PathBuf;

fn main() {
    println!("cargo:rerun-if-changed=build.rs");
    println!("cargo:rerun-if-env-changed=SNOWPLOUGHY_LIBRARY");
    if env::var_os("CARGO_FEATURE_LIBRARY").is_none() {
        return;
    }
    let (directory, name) = match env::var_os("SNOWPLOUGHY_LIBRARY") {
        Some(directory) => (PathBuf::from(directory), "hub"),
        None => {
            let here = PathBuf::from(env::var_os("CARGO_MANIFEST_DIR").expect("set by cargo"));
            (here.join("../crates/hub_c/out"), "hub_c")
        }
    };
    println!("cargo:rerun-if-changed={}", directory.join(format!("lib{name}.a")).display());
    println!("cargo:rustc-link-search=native={}", directory.display());
    println!("cargo:rustc-link-lib=static={name}");
}
