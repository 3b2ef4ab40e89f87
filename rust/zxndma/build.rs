//! Finds the proved libraries libhost.a and libin_place.a for the wrapper, or
//! makes them.
//!
//! A library that is there is taken as it is: proving is not a part of every
//! build. Where the crates' code has changed since, a warning says so, and
//! `docs/src/run-examples` makes the libraries anew.

use std::env;
use std::fs;
use std::path::{Path, PathBuf};
use std::process::{exit, Command};
use std::time::SystemTime;

/// The crates whose libraries are linked: the calls by value, and those in
/// place.
const CRATES: [&str; 2] = ["host", "in_place"];
const FOLDER_VARIABLE: &str = "ZXNDMA_LIB_DIR";

fn library(of: &str) -> String {
    format!("lib{of}.a")
}

/// The folder that holds the libraries: the one that the variable names, or the
/// one that the Rattle kit leaves them in, where the kit may have to make them.
fn library_folder(root: &Path) -> Result<PathBuf, String> {
    if let Some(named) = env::var_os(FOLDER_VARIABLE) {
        let folder = PathBuf::from(named);
        let libraries = CRATES.map(library);
        let missing: Vec<String> =
            libraries.into_iter().filter(|library| !folder.join(library).is_file()).collect();
        return if missing.is_empty() {
            Ok(folder)
        } else {
            let (place, missing) = (folder.display(), missing.join(" and no "));
            Err(format!("{FOLDER_VARIABLE} is {place}, and no {missing} is there"))
        };
    }
    let folder = root.join("target").join("staticlib");
    for name in CRATES {
        make_if_missing(name, &folder.join(library(name)), root)?;
    }
    Ok(folder)
}

/// Has the kit make a crate's library, if it is not there.
fn make_if_missing(name: &str, library: &Path, root: &Path) -> Result<(), String> {
    if library.is_file() {
        return Ok(());
    }
    let missing = format!("there is no {}", library.display());
    match Command::new(root.join("docs/src/build-proved")).arg(name).current_dir(root).status() {
        Ok(status) if status.success() && library.is_file() => Ok(()),
        Ok(status) => {
            Err(format!("{missing}, and 'docs/src/build-proved {name}' did not make it: {status}"))
        }
        Err(error) => Err(format!("{missing}, and docs/src/build-proved cannot be run: {error}")),
    }
}

/// When something in a folder or below it was last changed.
fn last_change(folder: &Path) -> Option<SystemTime> {
    let entries = fs::read_dir(folder).ok()?;
    let times = entries.filter_map(|entry| {
        let path = entry.ok()?.path();
        if path.is_dir() {
            last_change(&path)
        } else {
            fs::metadata(path).ok()?.modified().ok()
        }
    });
    times.max()
}

/// Warns of each library that the kit left and that is older than the code it
/// was made from.
fn warn_if_older(folder: &Path, root: &Path) {
    let crates = root.join("crates");
    let folders = fs::read_dir(&crates).into_iter().flatten();
    let sources: Vec<PathBuf> =
        folders.filter_map(|entry| Some(entry.ok()?.path().join("src"))).collect();
    for source in sources.iter().filter(|source| source.is_dir()) {
        println!("cargo:rerun-if-changed={}", source.display());
    }
    let changed = sources.iter().filter_map(|source| last_change(source)).max();
    for library in CRATES.map(library) {
        let made = fs::metadata(folder.join(&library)).and_then(|data| data.modified()).ok();
        if made < changed {
            println!(
                "cargo:warning={library} is older than the code in crates/; \
                 docs/src/run-examples makes it anew"
            );
        }
    }
}

fn main() {
    // rust/zxndma lies two folders below the root of the repository.
    let manifest = PathBuf::from(env::var_os("CARGO_MANIFEST_DIR").unwrap_or_default());
    let root = manifest.join("..").join("..");
    println!("cargo:rerun-if-changed=build.rs");
    println!("cargo:rerun-if-env-changed={FOLDER_VARIABLE}");
    match library_folder(&root) {
        Ok(folder) => {
            for library in CRATES.map(library) {
                println!("cargo:rerun-if-changed={}", folder.join(library).display());
            }
            if env::var_os(FOLDER_VARIABLE).is_none() {
                warn_if_older(&folder, &root);
            }
            println!("cargo:rustc-link-search=native={}", folder.display());
        }
        Err(reason) => {
            let [host, in_place] = CRATES;
            eprintln!("zxndma: a proved library is missing: {reason}.");
            eprintln!(
                "Get both by 'docs/src/build-proved {host} {in_place}' at the root of the \
                 repository, with the Rattle kit;"
            );
            eprintln!(
                "or set {FOLDER_VARIABLE} to a folder with a {} and a {} that were made elsewhere.",
                library(host),
                library(in_place)
            );
            exit(1);
        }
    }
}
