//! Finds the archive of the proved library and has it linked.

use std::env;
use std::path::{Path, PathBuf};
use std::process;

const FOLDER_VARIABLE: &str = "CDROM_LIB_DIR";
const MADE_BY_MAKE: &str = concat!(env!("CARGO_MANIFEST_DIR"), "/../../target/staticlib");

fn main() {
    println!("cargo:rerun-if-env-changed={FOLDER_VARIABLE}");
    let folder = folder();
    let archive = folder.join("libcdrom.a");
    println!("cargo:rerun-if-changed={}", archive.display());
    refuse_other_targets();
    refuse_missing(&archive);
    println!("cargo:rustc-link-search=native={}", folder.display());
    println!("cargo:rustc-link-lib=static=cdrom");
}

/// In full, since the linker does not run in this folder.
fn folder() -> PathBuf {
    let named = PathBuf::from(env::var_os(FOLDER_VARIABLE).unwrap_or(MADE_BY_MAKE.into()));
    named.canonicalize().unwrap_or(named)
}

fn refuse_other_targets() {
    let of_target = |key: &str| env::var(key).unwrap_or_default();
    let (processor, system) = (of_target("CARGO_CFG_TARGET_ARCH"), of_target("CARGO_CFG_TARGET_OS"));
    if (processor.as_str(), system.as_str()) != ("x86_64", "linux") {
        fail(&format!("libcdrom.a is for x86-64 Linux, not for {processor} {system}: docs/FIRMWARE.md has the way"));
    }
}

fn refuse_missing(archive: &Path) {
    if !archive.is_file() {
        let archive = archive.display();
        fail(&format!("{archive} is missing: run `make lib`, or name its folder in full in {FOLDER_VARIABLE}"));
    }
}

fn fail(message: &str) -> ! {
    eprintln!("cdrom: {message}");
    process::exit(1);
}
