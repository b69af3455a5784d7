//! Says where the archive libblackboxlog.a is: in the folder that BLACKBOXLOG_LIB_DIR names, or where pkg-config finds it, or where
//! `make lib` leaves it in this repository.

use std::env;
use std::path::{Path, PathBuf};
use std::process::Command;

fn main() {
    println!("cargo:rerun-if-env-changed=BLACKBOXLOG_LIB_DIR");
    println!("cargo:rerun-if-changed=build.rs");
    match env::var_os("BLACKBOXLOG_LIB_DIR").map(PathBuf::from).or_else(by_pkg_config).or_else(in_repository) {
        Some(folder) => {
            println!("cargo:rustc-link-search=native={}", folder.display());
            println!("cargo:rerun-if-changed={}", folder.join("libblackboxlog.a").display());
        }
        None => println!("cargo:warning=libblackboxlog.a was not found; set BLACKBOXLOG_LIB_DIR to its folder"),
    }
}

fn by_pkg_config() -> Option<PathBuf> {
    let run = Command::new("pkg-config").args(["--variable=libdir", "blackboxlog"]).output().ok()?;
    let folder = PathBuf::from(String::from_utf8(run.stdout).ok()?.trim());
    with_archive(folder)
}

fn in_repository() -> Option<PathBuf> {
    with_archive(Path::new(&env::var_os("CARGO_MANIFEST_DIR")?).join("../../build"))
}

fn with_archive(folder: PathBuf) -> Option<PathBuf> {
    if folder.join("libblackboxlog.a").is_file() {
        Some(folder)
    } else {
        None
    }
}
