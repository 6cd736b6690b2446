//! Links the archive of the C functions, or says what is missing.
//!
//! NJIMBAROS_ARCHIVE names it, or the folder that it is in; where it is not set, it is the one that bin/archive writes.

use std::env;
use std::path::{Path, PathBuf};

const NAME: &str = "libhost.a";

fn main() {
    println!("cargo::rerun-if-env-changed=NJIMBAROS_ARCHIVE");
    if let Err(message) = link() {
        println!("cargo::error={message}");
    }
}

fn link() -> Result<(), String> {
    test_target()?;
    let archive = archive();
    println!("cargo::rerun-if-changed={}", archive.display());
    if !archive.is_file() {
        return Err(format!("there is no archive at {}: run bin/archive, or set NJIMBAROS_ARCHIVE", archive.display()));
    }
    if !archive.ends_with(NAME) {
        return Err(format!("NJIMBAROS_ARCHIVE is {}: it has to name {NAME} or its folder", archive.display()));
    }
    let folder = archive.parent().unwrap_or(Path::new("."));
    println!("cargo::rustc-link-search=native={}", folder.display());
    println!("cargo::rustc-link-lib=static=host");
    Ok(())
}

/// What is proved is compiled for x86-64 Linux alone.
fn test_target() -> Result<(), String> {
    let of = |name: &str| env::var(name).unwrap_or_default();
    let (arch, os) = (of("CARGO_CFG_TARGET_ARCH"), of("CARGO_CFG_TARGET_OS"));
    // with 32-bit pointers too, x32, a slice would be another thing
    if arch == "x86_64" && os == "linux" && of("CARGO_CFG_TARGET_POINTER_WIDTH") == "64" {
        return Ok(());
    }
    Err(format!(
        "the archive is for x86-64 Linux, and the target is {arch} {os}: add --target x86_64-unknown-linux-gnu"
    ))
}

fn archive() -> PathBuf {
    let own = Path::new(&env::var_os("CARGO_MANIFEST_DIR").unwrap_or_default()).join("../../target/staticlib");
    let named = env::var_os("NJIMBAROS_ARCHIVE").filter(|path| !path.is_empty()).map_or(own, PathBuf::from);
    if named.is_dir() {
        named.join(NAME)
    } else {
        named
    }
}
