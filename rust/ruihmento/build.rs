//! Links the proved archive: that of the folder in `RUIHMENTO_ARCHIVE_DIR`, or the one that
//! `./archive` at the repository's root leaves in `target/staticlib` there.

use std::path::{Path, PathBuf};

/// The environment variable that names another folder for the archive.
const FOLDER: &str = "RUIHMENTO_ARCHIVE_DIR";

fn main() {
    println!("cargo:rerun-if-changed=build.rs");
    println!("cargo:rerun-if-env-changed={FOLDER}");
    let folder = folder();
    let archive = folder.join("libruihmento.a");
    println!("cargo:rerun-if-changed={}", archive.display());
    if !archive.is_file() {
        fail(&missing(&archive));
    }
    let processor = cargo_gives("CARGO_CFG_TARGET_ARCH");
    if processor != "x86_64" {
        println!("cargo:warning=the archive is for x86-64 and does not link for {processor}");
    }
    println!("cargo:rustc-link-search=native={}", folder.display());
    println!("cargo:rustc-link-lib=static=ruihmento");
    // For the test of the C example, which links it too.
    println!("cargo:rustc-env=RUIHMENTO_ARCHIVE={}", archive.display());
}

/// The folder in which the archive is looked for.
fn folder() -> PathBuf {
    match std::env::var_os(FOLDER).map(PathBuf::from) {
        None => PathBuf::from(cargo_gives("CARGO_MANIFEST_DIR")).join("../../target/staticlib"),
        Some(folder) if folder.is_absolute() => folder,
        Some(folder) => fail(&format!(
            "{FOLDER} is {}, which is no absolute path",
            folder.display()
        )),
    }
}

/// What to do where there is no archive.
fn missing(archive: &Path) -> String {
    format!(
        "there is no archive at {}: run `./archive` at the repository's root, or set {FOLDER} \
         to the folder that has libruihmento.a",
        archive.display()
    )
}

/// A variable that cargo sets for build scripts.
fn cargo_gives(name: &str) -> String {
    std::env::var(name).unwrap_or_else(|_| fail(&format!("cargo does not give {name}")))
}

/// Ends the build with this reason.
fn fail(why: &str) -> ! {
    eprintln!("{why}");
    std::process::exit(1);
}
