//! Links the two altered builds of the library, which beside/benchmark makes first; it alone asks for them, by the
//! feature `altered`.

use std::{env, fs};

fn main() {
    println!("cargo:rerun-if-changed=build.rs");
    if env::var_os("CARGO_FEATURE_ALTERED").is_none() {
        return;
    }
    for (folder, name) in [("hardware-root", "bare"), ("counted-root", "counted")] {
        let path = format!("../../target/altered/{folder}");
        let found = fs::canonicalize(format!("{path}/lib{name}.a"))
            .unwrap_or_else(|error| panic!("{path}/lib{name}.a: {error}; run beside/benchmark"));
        println!("cargo:rerun-if-changed={}", found.display());
        let folder = found.parent().expect("a file lies in a folder");
        println!("cargo:rustc-link-search=native={}", folder.display());
        println!("cargo:rustc-link-lib=static={name}");
    }
}
