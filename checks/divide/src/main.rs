//! `divide ROOT ARCHIVE`: the sources below ROOT and the archive divide nowhere that they must not. `divide --list
//! ROOT` lists every division of the sources.

use divide::{check_archive, check_sources, list, Archive, Sources, Tree};
use std::path::Path;
use std::process::ExitCode;

const USAGE: &str = "usage: divide ROOT ARCHIVE
       divide --list ROOT
       divide --help
ROOT is the folder with crates.txt and crates, ARCHIVE is libcdrom.a. Findings, that something divides where it must
not, are told on standard error, and the exit code is 1; objdump and nm are needed. --list prints every division of
the sources.";

fn main() -> ExitCode {
    let arguments: Vec<String> = std::env::args().skip(1).collect();
    let arguments: Vec<&str> = arguments.iter().map(String::as_str).collect();
    match arguments[..] {
        ["--help"] => end(Ok(USAGE.to_string())),
        ["--list", root] => end(Tree::read(Path::new(root)).and_then(|tree| list(&tree))),
        [root, archive] if !root.starts_with('-') => check(root, archive),
        _ => {
            eprintln!("{USAGE}");
            ExitCode::from(2)
        }
    }
}

/// Both sides are looked at, whatever the first one has shown.
fn check(root: &str, archive: &str) -> ExitCode {
    let sources = Tree::read(Path::new(root)).and_then(|tree| check_sources(&tree)).and_then(told_sources);
    let archive = check_archive(Path::new(archive)).and_then(told_archive);
    let ends = [end(sources), end(archive)];
    if ends.iter().all(|code| *code == ExitCode::SUCCESS) {
        return ExitCode::SUCCESS;
    }
    ExitCode::FAILURE
}

fn end(told: Result<String, String>) -> ExitCode {
    match told {
        Ok(text) => {
            println!("{}", text.trim_end());
            ExitCode::SUCCESS
        }
        Err(trouble) => {
            eprintln!("divide: {trouble}");
            ExitCode::FAILURE
        }
    }
}

fn told_sources(sources: Sources) -> Result<String, String> {
    refuse("the sources divide where they must not", sources.findings.iter().map(ToString::to_string))?;
    let kit: Vec<String> = sources.kit.into_iter().collect();
    Ok(format!(
        "sources: {} functions reached from the step and the comparison of addresses, none divides; \
        {} from {} exported calls of a drive, by powers of two alone; of the kit: {}",
        sources.from_roots.len(),
        sources.from_calls.len(),
        sources.calls,
        if kit.is_empty() { "nothing".to_string() } else { kit.join(", ") }
    ))
}

fn told_archive(archive: Archive) -> Result<String, String> {
    refuse("the archive divides, or may", archive.findings.iter().cloned())?;
    Ok(format!("archive: {} instructions of {} functions, none divides", archive.instructions, archive.functions))
}

fn refuse(heading: &str, findings: impl Iterator<Item = String>) -> Result<(), String> {
    let lines: Vec<String> = findings.map(|finding| format!("\n  {finding}")).collect();
    if lines.is_empty() {
        return Ok(());
    }
    Err(format!("{heading}:{}", lines.concat()))
}
