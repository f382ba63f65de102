//! Links the static library: the one that `tools/library` writes, or an installed one.

use std::env;
use std::path::{Path, PathBuf};
use std::process::{exit, Command};

/// The variable that names the library's folder; with it nothing else is tried.
const VARIABLE: &str = "YOKTVARIM_LIB_DIR";

fn main() {
    println!("cargo:rerun-if-env-changed={VARIABLE}");
    println!("cargo:rerun-if-env-changed=PKG_CONFIG_PATH");
    let checkout =
        PathBuf::from(env::var("CARGO_MANIFEST_DIR").expect("cargo names the crate's folder"))
            .join("../target/staticlib");
    let folder = match env::var_os(VARIABLE) {
        Some(folder) => PathBuf::from(folder),
        None if library(&checkout).exists() => checkout,
        None => installed().unwrap_or(checkout),
    };
    println!("cargo:rerun-if-changed={}", library(&folder).display());
    if !library(&folder).exists() {
        eprintln!("{} is not there.", library(&folder).display());
        eprintln!("`tools/library` at the repository's root proves it and writes it, `tools/install PREFIX` installs it.");
        eprintln!("{VARIABLE} names another folder to look in, as PREFIX/lib; or PKG_CONFIG_PATH names PREFIX/lib/pkgconfig.");
        exit(1);
    }
    println!("cargo:rustc-link-search=native={}", folder.display());
    println!("cargo:rustc-link-lib=static=yoktvarim");
}

fn library(folder: &Path) -> PathBuf {
    folder.join("libyoktvarim.a")
}

/// The folder of the library that pkg-config knows, where it has the version of this crate.
fn installed() -> Option<PathBuf> {
    let wanted = format!("yoktvarim = {}", env!("CARGO_PKG_VERSION"));
    let asked = Command::new("pkg-config")
        .args(["--variable=libdir", &wanted])
        .output()
        .ok()?;
    if !asked.status.success() {
        return None;
    }
    let folder = String::from_utf8(asked.stdout).ok()?;
    // pkg-config quotes the spaces of a folder that a package was unpacked to, and not those of an install.
    Some(folder.trim_end_matches('\n').replace("\\ ", " ").into())
}
