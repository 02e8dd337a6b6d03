//! Finds libtishkolan.a: in the folder that TISHKOLAN_LIBRARY_DIR names, else where pkg-config says
//! it was installed, else in target/staticlib of this repository, where there is one for each machine.

use std::path::{Path, PathBuf};
use std::process::Command;

const ARCHIVE: &str = "libtishkolan.a";

fn main() {
    println!("cargo:rerun-if-changed=build.rs");
    println!("cargo:rerun-if-env-changed=TISHKOLAN_LIBRARY_DIR");
    println!("cargo:rerun-if-env-changed=PKG_CONFIG_PATH");
    println!("cargo:rerun-if-env-changed=PKG_CONFIG_LIBDIR");
    let machine = std::env::var("CARGO_CFG_TARGET_ARCH").unwrap_or_default();
    let folder = match std::env::var_os("TISHKOLAN_LIBRARY_DIR") {
        Some(named) => there(PathBuf::from(named), "TISHKOLAN_LIBRARY_DIR names a folder without it"),
        None => installed().unwrap_or_else(|| {
            there(
                Path::new(env!("CARGO_MANIFEST_DIR")).join("../target/staticlib").join(machine),
                "TISHKOLAN_LIBRARY_DIR is not set, pkg-config does not know tishkolan, and ./library has not been run",
            )
        }),
    };
    println!("cargo:rerun-if-changed={}", folder.join(ARCHIVE).display());
    println!("cargo:rustc-link-search=native={}", folder.display());
    println!("cargo:rustc-link-lib=static=tishkolan");
}

/// The folder of the installed library.
fn installed() -> Option<PathBuf> {
    let said = Command::new("pkg-config")
        .args(["--variable=libdir", "tishkolan"])
        .output()
        .ok()?;
    // It writes a space in a path with a backslash before it.
    let folder = String::from_utf8(said.stdout).ok()?.replace("\\ ", " ");
    let folder = PathBuf::from(folder.trim_end());
    (said.status.success() && folder.join(ARCHIVE).is_file()).then_some(folder)
}

/// The folder, if the archive is in it; else the build ends here.
fn there(folder: PathBuf, why: &str) -> PathBuf {
    if !folder.join(ARCHIVE).is_file() {
        eprintln!(
            "tishkolan: there is no {}: {why}",
            folder.join(ARCHIVE).display()
        );
        std::process::exit(1);
    }
    folder
}
