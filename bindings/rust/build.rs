//! Links the archive that include/archive writes into this crate, so that a program needs no line of its own. It is looked for in the folder that
//! WONTABELI_LIB names, by default target/staticlib of the repository. The archive is for x86-64, and other targets are refused.
use std::env;
use std::path::{Path, PathBuf};
use std::process::exit;

fn main() {
    let target = env::var("CARGO_CFG_TARGET_ARCH").expect("Cargo sets it");
    if target != "x86_64" {
        eprintln!("wontabeli: the archive of the proved calls is for x86-64 hosts, and this build is for {target}");
        exit(1);
    }
    let folder = match env::var_os("WONTABELI_LIB") {
        Some(folder) => PathBuf::from(folder),
        None => Path::new(&env::var_os("CARGO_MANIFEST_DIR").expect("Cargo sets it")).join("../../target/staticlib"),
    };
    let archive = folder.join("libwontabeli.a");
    if !archive.exists() {
        println!("cargo:warning=there is no {}: run include/archive, or name its folder in WONTABELI_LIB", archive.display());
    }
    println!("cargo:rerun-if-env-changed=WONTABELI_LIB");
    println!("cargo:rerun-if-changed={}", archive.display());
    println!("cargo:rerun-if-changed=build.rs");
    println!("cargo:rustc-link-search=native={}", folder.display());
    println!("cargo:rustc-link-lib=static=wontabeli");
}
