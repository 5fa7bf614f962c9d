//! Takes the files of the original from the folder SOURCE, makes the changes of prepare.rs and
//! writes the copies, with the list of changed lines, where cargo keeps what it builds.

mod prepare;

use std::path::Path;
use std::{env, fs, process};

/// Where the original is when SOURCE does not say: the shared folder beside the repository.
const DEFAULT: &str = "../../shared/docs/src";

fn main() {
    println!("cargo:rerun-if-changed=build.rs");
    println!("cargo:rerun-if-changed=prepare.rs");
    println!("cargo:rerun-if-env-changed=SOURCE");
    println!("cargo:rerun-if-env-changed=CARGO_ENCODED_RUSTFLAGS");
    if let Err(message) = build() {
        eprintln!("\nThe original could not be prepared.\n{message}\n");
        process::exit(1);
    }
}

fn build() -> Result<(), String> {
    unfused()?;
    let given = env::var("SOURCE").unwrap_or_else(|_| DEFAULT.to_string());
    let source = fs::canonicalize(&given)
        .map_err(|error| format!("SOURCE, from beside/, is {given}: {error}"))?;
    println!("cargo:rustc-env=SOURCE_FOLDER={}", source.display());

    let target = env::var("OUT_DIR").map_err(|error| error.to_string())?;
    let mut changes = String::new();
    for file in prepare::FILES {
        let path = source.join(file.path);
        println!("cargo:rerun-if-changed={}", path.display());
        let text =
            fs::read_to_string(&path).map_err(|error| format!("{}: {error}", path.display()))?;
        let prepared = prepare::prepare(file, &text)?;
        write(&Path::new(&target).join(file.path), &prepared.copy)?;
        changes.push_str(&prepared.listing);
    }
    write(&Path::new(&target).join("changes.txt"), &changes)
}

fn write(path: &Path, text: &str) -> Result<(), String> {
    let folder = path.parent().ok_or("no folder")?;
    fs::create_dir_all(folder)
        .and_then(|()| fs::write(path, text))
        .map_err(|error| format!("{}: {error}", path.display()))
}

/// A product and a sum must round one after the other. Rust never joins them by itself (a test
/// looks at what was built); the flags by which a build could be led to do so are refused.
fn unfused() -> Result<(), String> {
    let flags = env::var("CARGO_ENCODED_RUSTFLAGS").unwrap_or_default();
    let refused = ["target-cpu", "target-feature", "llvm-args"];
    match refused.iter().find(|flag| flags.contains(**flag)) {
        Some(flag) => Err(format!("expected no `{flag}` among the flags of rustc")),
        None => Ok(()),
    }
}
