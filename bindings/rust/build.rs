//! Finds libbpfcanon in the folder `BPFCANON_LIB_DIR`, or else by `pkg-config`.

use std::path::{Path, PathBuf};
use std::process::{exit, Command};
use std::{env, io};

/// A library of major version 0 has all calls of the earlier ones of it.
const VERSIONS: &str = "bpfcanon >= 0.1.0 bpfcanon < 1";

fn main() {
    println!("cargo:rerun-if-changed=build.rs");
    for name in [
        "BPFCANON_LIB_DIR",
        "BPFCANON_STATIC",
        "PKG_CONFIG",
        "PKG_CONFIG_PATH",
        "PKG_CONFIG_LIBDIR",
    ] {
        println!("cargo:rerun-if-env-changed={name}");
    }
    // docs.rs has no library, and links nothing.
    if env::var_os("DOCS_RS").is_some() {
        return;
    }
    let found = match env::var_os("BPFCANON_LIB_DIR") {
        Some(folder) => check_folder(folder.into()),
        None => ask_pkg_config(),
    };
    let folder = found.unwrap_or_else(|reason| {
        eprintln!(
            "bpfcanon needs its C library ({reason}): install libbpfcanon-dev, or set \
             PKG_CONFIG_PATH to the folder of bpfcanon.pc or BPFCANON_LIB_DIR to that of the \
             library"
        );
        exit(1)
    });
    println!("cargo:rustc-link-search=native={}", folder.display());
    println!("cargo:rustc-link-lib={}=bpfcanon", kind_of_library(&folder));
}

/// A folder without the shared library gives the static one.
fn kind_of_library(folder: &Path) -> &'static str {
    let is_wanted = env::var_os("BPFCANON_STATIC").map_or(false, |value| value == "1");
    if is_wanted || !folder.join("libbpfcanon.so").exists() {
        "static"
    } else {
        "dylib"
    }
}

fn check_folder(folder: PathBuf) -> Result<PathBuf, String> {
    match ["libbpfcanon.a", "libbpfcanon.so"].iter().any(|name| folder.join(name).exists()) {
        true => Ok(folder),
        false => Err(format!("there is none in {}", folder.display())),
    }
}

fn ask_pkg_config() -> Result<PathBuf, String> {
    let program = env::var_os("PKG_CONFIG").unwrap_or_else(|| "pkg-config".into());
    let run = |words: &[&str]| Command::new(&program).args(words).output();
    let name = program.to_string_lossy();
    let not_run = |error: io::Error| format!("{name} can't be run: {error}");
    let asked = run(&["--exists", "--print-errors", VERSIONS]).map_err(not_run)?;
    if !asked.status.success() {
        let said = String::from_utf8_lossy(&asked.stderr);
        return Err(format!("{name}: {}", said.lines().next().unwrap_or("it isn't found")));
    }
    let asked = run(&["--variable=libdir", "bpfcanon"]).map_err(not_run)?;
    check_folder(String::from_utf8_lossy(&asked.stdout).trim().into())
}
