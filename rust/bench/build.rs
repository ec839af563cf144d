//! Links an earlier library beside today's where `LINDYPO_EARLIER` names its
//! archive, under names of its own, so that the calls of both can take turns.

use std::path::{Path, PathBuf};
use std::process::Command;
use std::{env, fs};

const CALLS: [&str; 6] = ["read", "name", "plan", "run", "follow", "retouch"];

/// What a library from before order 4 does not have.
const RETOUCH: &[u8] = b"lindypo_retouch";

fn main() {
    println!("cargo:rerun-if-env-changed=LINDYPO_EARLIER");
    println!("cargo:rustc-check-cfg=cfg(earlier, earlier_retouch)");
    if let Some(archive) = env::var_os("LINDYPO_EARLIER") {
        link(Path::new(&archive));
    }
}

fn link(archive: &Path) {
    let folder = PathBuf::from(env::var_os("OUT_DIR").expect("cargo says where to write"));
    let mut command = Command::new("objcopy");
    for call in CALLS {
        command.arg(format!("--redefine-sym=lindypo_{call}=earlier_{call}"));
    }
    // whatever else it exports would stand beside today's under one name
    command.args(["--wildcard", "--keep-global-symbol=earlier_*"]);
    let copied = command
        .arg(archive)
        .arg(folder.join("libearlier.a"))
        .status();
    assert!(
        copied.is_ok_and(|status| status.success()),
        "LINDYPO_EARLIER: objcopy cannot copy {}",
        archive.display()
    );
    println!("cargo:rerun-if-changed={}", archive.display());
    println!("cargo:rustc-link-search=native={}", folder.display());
    println!("cargo:rustc-link-lib=static=earlier");
    println!("cargo:rustc-cfg=earlier");
    if has_retouch(archive) {
        println!("cargo:rustc-cfg=earlier_retouch");
    }
}

/// Whether an archive has the call: the names of all that it exports stand in it.
fn has_retouch(archive: &Path) -> bool {
    let bytes = fs::read(archive).expect("an archive that objcopy could read");
    let mut parts = bytes.windows(RETOUCH.len());
    parts.any(|part| part == RETOUCH)
}
