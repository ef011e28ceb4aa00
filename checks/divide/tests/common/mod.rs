//! Archives in C, each made in a folder of its own.

use std::fs;
use std::path::{Path, PathBuf};
use std::process::Command;

/// The two calls that an archive must have, neither of which divides.
pub const NEXT: &str = "unsigned cdrom_next_address(unsigned a) { return a + 1; }";
pub const JUDGE: &str = "unsigned cdrom_judge(unsigned a, unsigned b) { return a == b; }";

/// An empty folder for what a test makes.
pub fn folder(name: &str) -> PathBuf {
    let folder = Path::new(env!("CARGO_TARGET_TMPDIR")).join(name);
    let _ = fs::remove_dir_all(&folder);
    fs::create_dir_all(&folder).expect("a folder is made");
    folder
}

/// An archive with a member for each text in C.
pub fn archive(name: &str, texts: &[&str]) -> PathBuf {
    let folder = folder(name);
    for (number, text) in texts.iter().enumerate() {
        let source = format!("member{number}.c");
        fs::write(folder.join(&source), text).expect("a file is written");
        run(Command::new("cc").current_dir(&folder).args(["-O2", "-c", &source]));
    }
    let members = (0..texts.len()).map(|number| format!("member{number}.o"));
    run(Command::new("ar").current_dir(&folder).args(["rc", "libcdrom.a"]).args(members));
    folder.join("libcdrom.a")
}

pub fn run(command: &mut Command) {
    let status = command.status().unwrap_or_else(|error| panic!("{command:?}: {error}"));
    assert!(status.success(), "{command:?}: {status}");
}
