//! Finds the library, in the first of these places:
//!
//! 1. the folder that LINDYPO_LIB_DIR names;
//! 2. the repository that this crate stands in, where the library is built there;
//! 3. an installed library, by pkg-config.
//!
//! The repository comes before an installed library, so that its tests are about
//! its own.

use std::env;
use std::path::{Path, PathBuf};
use std::process::Command;

const FOLDER: &str = "LINDYPO_LIB_DIR";

/// Where the repository has the library, and its list of what that is made of,
/// from the folder of this crate.
const BUILT: &str = "../../target/staticlib";
const CRATES: &str = "../../crates.txt";

/// What pkg-config goes by.
const PKG_CONFIG: [&str; 4] = [
    "PKG_CONFIG",
    "PKG_CONFIG_PATH",
    "PKG_CONFIG_LIBDIR",
    "PKG_CONFIG_SYSROOT_DIR",
];

fn main() {
    println!("cargo:rerun-if-changed=build.rs");
    for name in [FOLDER].iter().chain(&PKG_CONFIG) {
        println!("cargo:rerun-if-env-changed={name}");
    }
    match folder().and_then(|folder| Ok((kind_in(&folder)?, folder))) {
        Ok((kind, folder)) => {
            println!("cargo:rustc-link-search=native={}", folder.display());
            println!("cargo:rustc-link-lib={kind}=lindypo");
        }
        Err(trouble) => {
            eprintln!("lindypo: {trouble}");
            std::process::exit(1);
        }
    }
}

/// The folder that has the library.
fn folder() -> Result<PathBuf, String> {
    if let Some(named) = env::var_os(FOLDER) {
        return Ok(PathBuf::from(named));
    }
    let here = env::var_os("CARGO_MANIFEST_DIR").ok_or("cargo did not say where the crate is")?;
    let built = Path::new(&here).join(BUILT);
    if built.join("liblindypo.a").is_file() {
        return Ok(built);
    }
    if Path::new(&here).join(CRATES).is_file() {
        // it may be built yet
        println!("cargo:rerun-if-changed={}", built.display());
    }
    installed().map_err(|trouble| {
        format!(
            "there is no library to link.\n\
             - {FOLDER} is not set\n\
             - there is no {BUILT}/liblindypo.a, as in the repository\n\
             - {trouble}\n\
             In the repository, `c/library` makes one. Elsewhere, `./install PREFIX` \
             of the repository installs one: set PKG_CONFIG_PATH to PREFIX/lib/pkgconfig, or \
             {FOLDER} to PREFIX/lib"
        )
    })
}

/// Static where there is a static library, so that a program needs no other file.
fn kind_in(folder: &Path) -> Result<&'static str, String> {
    for (file, kind) in [("liblindypo.a", "static"), ("liblindypo.so", "dylib")] {
        if folder.join(file).is_file() {
            println!("cargo:rerun-if-changed={}", folder.join(file).display());
            return Ok(kind);
        }
    }
    Err(format!(
        "there is neither liblindypo.a nor liblindypo.so in {}; {FOLDER} has to be the folder \
         of the library, PREFIX/lib after `./install PREFIX`",
        folder.display()
    ))
}

/// The folder of an installed library of this crate's version.
fn installed() -> Result<PathBuf, String> {
    let (major, minor) = (
        env!("CARGO_PKG_VERSION_MAJOR"),
        env!("CARGO_PKG_VERSION_MINOR"),
    );
    let version = ask_pkg_config(&["--modversion", "lindypo"])?;
    if !version.starts_with(&format!("{major}.{minor}.")) {
        return Err(format!(
            "pkg-config knows lindypo {version}; {major}.{minor} is wanted"
        ));
    }
    ask_pkg_config(&["--variable=libdir", "lindypo"]).map(PathBuf::from)
}

/// What pkg-config prints, else what is wrong.
fn ask_pkg_config(words: &[&str]) -> Result<String, String> {
    let program = env::var_os("PKG_CONFIG").unwrap_or_else(|| "pkg-config".into());
    let done = Command::new(&program)
        .args(words)
        .output()
        .map_err(|error| format!("{} does not run: {error}", program.to_string_lossy()))?;
    match done.status.success() {
        true => Ok(String::from_utf8_lossy(&done.stdout).trim().to_string()),
        false => Err("pkg-config knows no lindypo".to_string()),
    }
}
