//! Links the engine's static archive and that of its tests when the feature `archive` is on, and fails without them.

use std::collections::hash_map::DefaultHasher;
use std::hash::Hasher;
use std::path::{Path, PathBuf};
use std::{env, fs};

fn main() {
    println!("cargo:rerun-if-changed=build.rs");
    if env::var_os("CARGO_FEATURE_ARCHIVE").is_none() {
        return;
    }
    let package = PathBuf::from(env::var_os("CARGO_MANIFEST_DIR").expect("cargo names the package's folder"));
    let folder = package.join("../../target/staticlib");
    println!("cargo:rustc-link-search=native={}", folder.display());
    link(&folder, "engine", "ENGINE_ARCHIVE");
    link(&folder, "probe", "PROBE_ARCHIVE");
}

fn link(folder: &Path, library: &str, variable: &str) {
    let archive = folder.join(format!("lib{library}.a"));
    println!("cargo:rerun-if-changed={}", archive.display());
    let bytes = fs::read(&archive).unwrap_or_else(|error| panic!("no archive to compare with, {}: {error}", archive.display()));
    // What was linked, for the comparison to see that it still lies there.
    println!("cargo:rustc-env={variable}={}", archive.display());
    println!("cargo:rustc-env={variable}_SUM={:016x}", sum(&bytes));
    println!("cargo:rustc-link-lib=static={library}");
}

/// The same sum as in src/archive.rs.
fn sum(bytes: &[u8]) -> u64 {
    let mut hasher = DefaultHasher::new();
    hasher.write(bytes);
    hasher.finish()
}
