//! Finds the library: in DEZHAKOM_LIB_DIR; else where pkg-config says; else in target/staticlib of this repository.

use std::path::{Path, PathBuf};
use std::process::Command;
use std::{env, fs};

fn main() {
    println!("cargo:rerun-if-env-changed=DEZHAKOM_LIB_DIR");
    println!("cargo:rerun-if-env-changed=PKG_CONFIG_PATH");
    let folder = env::var_os("DEZHAKOM_LIB_DIR").map(PathBuf::from).or_else(by_pkg_config).or_else(by_repository);
    let Some(folder) = folder else {
        panic!("libdezhakom.a is not found: install it by ./install PREFIX and set DEZHAKOM_LIB_DIR to PREFIX/lib");
    };
    let library = folder.join("libdezhakom.a");
    assert!(library.is_file(), "{} is not there", library.display());
    println!("cargo:rerun-if-changed={}", library.display());
    println!("cargo:rustc-link-search=native={}", folder.display());
    println!("cargo:rustc-link-lib=static=dezhakom");
}

fn by_pkg_config() -> Option<PathBuf> {
    let output = Command::new("pkg-config").args(["--variable=libdir", "dezhakom"]).output().ok()?;
    let folder = String::from_utf8(output.stdout).ok()?;
    (output.status.success() && !folder.trim().is_empty()).then(|| PathBuf::from(folder.trim()))
}

/// What `tools/build_programs` has built, under the library's name.
fn by_repository() -> Option<PathBuf> {
    let built = Path::new(&env::var_os("CARGO_MANIFEST_DIR")?).join("../../target/staticlib/libexports.a");
    println!("cargo:rerun-if-changed={}", built.display());
    let folder = PathBuf::from(env::var_os("OUT_DIR")?);
    fs::copy(built, folder.join("libdezhakom.a")).ok()?;
    Some(folder)
}
