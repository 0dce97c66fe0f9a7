//! Finds the library libufs.a, and has it linked in.
//!
//! It lies in the folder that the variable BUTCHERFORD_LIB_DIR names. Where that is not set it lies
//! where pkg-config's `ufs` says, and else where `make install` and `make clients` build it in the
//! repository. A relative folder counts from that of this crate.
use std::env;
use std::path::{Path, PathBuf};
use std::process::{exit, Command};

const VARIABLE: &str = "BUTCHERFORD_LIB_DIR";
const ARCHIVE: &str = "libufs.a";
const IN_REPOSITORY: &str = "../../crates/libufs/out";

fn main() {
    println!("cargo:rerun-if-changed=build.rs");
    for variable in [VARIABLE, "PKG_CONFIG", "PKG_CONFIG_PATH"] {
        println!("cargo:rerun-if-env-changed={variable}");
    }
    match folder() {
        Ok(folder) => {
            println!("cargo:rerun-if-changed={}", folder.join(ARCHIVE).display());
            println!("cargo:rustc-link-search=native={}", folder.display());
            println!("cargo:rustc-link-lib=static=ufs");
        }
        Err(told) => {
            eprintln!("butcherford: {told}");
            exit(1);
        }
    }
}

/// The folder in which the library lies, or what to do about it.
fn folder() -> Result<PathBuf, String> {
    if let Some(named) = env::var_os(VARIABLE) {
        return with_archive(Path::new(&named)).ok_or(format!(
            "there is no {ARCHIVE} in {}, which {VARIABLE} names; name the folder in which it lies",
            named.to_string_lossy()
        ));
    }
    let places = [told_by_pkg_config(), Some(PathBuf::from(IN_REPOSITORY))];
    places
        .iter()
        .flatten()
        .find_map(|it| with_archive(it))
        .ok_or(format!(
        "there is no {ARCHIVE}: `pkg-config --variable=libdir ufs` tells no folder that has it, \
             and it is not in {IN_REPOSITORY}; build it by `make install PREFIX=DIR` in the \
             repository of Butcherford, and set {VARIABLE}=DIR/lib"
    ))
}

/// The whole path of the folder, where it has the library.
fn with_archive(folder: &Path) -> Option<PathBuf> {
    let whole = folder.canonicalize().ok()?;
    whole.join(ARCHIVE).is_file().then_some(whole)
}

/// What pkg-config says, where it is there and knows the library.
fn told_by_pkg_config() -> Option<PathBuf> {
    let program = env::var_os("PKG_CONFIG").unwrap_or_else(|| "pkg-config".into());
    let done = Command::new(program)
        .args(["--variable=libdir", "ufs"])
        .output()
        .ok()?;
    let told = String::from_utf8(done.stdout).ok()?;
    (done.status.success() && !told.trim().is_empty()).then(|| PathBuf::from(told.trim()))
}
