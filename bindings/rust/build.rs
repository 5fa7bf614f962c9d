//! Finds the static library for the machine that is built for, and links it. It is looked for in the
//! folder MEROTUNKI_LIBRARY where that is set; else beside this crate in ../lib, as the package has it;
//! else in target/native of the repository, where `tools/native` writes it.

use std::path::{Path, PathBuf};
use std::{env, fs, process};

/// The library's name for each of Rust's targets that it is built for.
const TARGETS: [(&str, &str); 6] = [
    ("aarch64-unknown-linux-gnu", "linux-arm64"),
    ("x86_64-unknown-linux-gnu", "linux-x86-64"),
    ("aarch64-linux-android", "android-arm64"),
    ("x86_64-linux-android", "android-x86-64"),
    ("aarch64-apple-ios", "ios-arm64"),
    ("aarch64-apple-ios-sim", "ios-simulator-arm64"),
];
const ARCHIVE: &str = "libmerotunki.a";

fn main() {
    println!("cargo:rerun-if-changed=build.rs");
    println!("cargo:rerun-if-env-changed=MEROTUNKI_LIBRARY");
    match found() {
        Ok(folder) => {
            println!("cargo:rerun-if-changed={}", folder.join(ARCHIVE).display());
            println!("cargo:rustc-link-search=native={}", folder.display());
            println!("cargo:rustc-link-lib=static=merotunki");
        }
        Err(message) => {
            eprintln!("\n{message}\n");
            process::exit(1);
        }
    }
}

fn found() -> Result<PathBuf, String> {
    if let Ok(given) = env::var("MEROTUNKI_LIBRARY") {
        return folder(Path::new(&given))
            .ok_or(format!("MEROTUNKI_LIBRARY is {given}, and there is no {ARCHIVE} in it."));
    }
    let target = env::var("TARGET").unwrap_or_default();
    let Some((_, name)) = TARGETS.iter().find(|(triple, _)| *triple == target) else {
        let known: Vec<&str> = TARGETS.iter().map(|(triple, _)| *triple).collect();
        return Err(format!(
            "The library is not built for {target}, but for {}.\n\
             Set MEROTUNKI_LIBRARY to a folder with a {ARCHIVE} that was compiled for it.",
            known.join(", ")
        ));
    };
    let here = PathBuf::from(env::var("CARGO_MANIFEST_DIR").unwrap_or_default());
    let places = [here.join("../lib").join(name), here.join("../../target/native").join(name)];
    places.iter().find_map(|place| folder(place)).ok_or(format!(
        "No {ARCHIVE} for {target}. Looked for in\n  {}\n  {}\n\
         In the repository `tools/native {name}` makes it; or set MEROTUNKI_LIBRARY to its folder.",
        places[0].display(),
        places[1].display()
    ))
}

/// The folder, if the library is in it.
fn folder(place: &Path) -> Option<PathBuf> {
    fs::canonicalize(place.join(ARCHIVE)).ok()?.parent().map(Path::to_path_buf)
}
