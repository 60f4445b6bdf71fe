//! Finds libspeck.a: in the folder that SPECK_LIB_DIR names; where this crate was installed beside it (PREFIX/share/speck/rust and PREFIX/lib);
//! in the repository, where c/build leaves it; or where pkg-config says.

use std::path::{Path, PathBuf};
use std::process::Command;
use std::{env, fs};

fn by_pkg_config() -> Option<PathBuf> {
    let told = Command::new("pkg-config").args(["--variable=libdir", "speck"]).output().ok()?;
    let folder = String::from_utf8(told.stdout).ok()?;
    (told.status.success() && !folder.trim().is_empty()).then(|| PathBuf::from(folder.trim()))
}

fn has_library(folder: &Path) -> bool {
    folder.join("libspeck.a").is_file()
}

fn main() {
    println!("cargo::rerun-if-env-changed=SPECK_LIB_DIR");
    let here = PathBuf::from(env::var_os("CARGO_MANIFEST_DIR").expect("cargo says where the crate is"));
    let named = env::var_os("SPECK_LIB_DIR").map(PathBuf::from);
    let beside = [here.join("../../../lib"), here.join("../c/out")];
    let Some(folder) = named.into_iter().chain(beside).find(|it| has_library(it)).or_else(|| by_pkg_config().filter(|it| has_library(it))) else {
        panic!("libspeck.a is nowhere to be found: make it with c/build, and name its folder in SPECK_LIB_DIR");
    };
    let folder = fs::canonicalize(folder).expect("the folder was there");
    println!("cargo::rerun-if-changed={}", folder.join("libspeck.a").display());
    println!("cargo::rustc-link-search=native={}", folder.display());
    println!("cargo::rustc-link-lib=static=speck");
}
