//! The library's archive, and small ones that divide, that are empty, or that leave something open.

mod common;

use common::{archive, folder, run, JUDGE, NEXT};
use divide::{check_archive, Archive};
use std::env;
use std::fs;
use std::path::{Path, PathBuf};
use std::process::Command;

const MADE_BY_MAKE: &str = concat!(env!("CARGO_MANIFEST_DIR"), "/../../target/staticlib");

fn checked(name: &str, texts: &[&str]) -> Archive {
    check_archive(&archive(name, texts)).unwrap()
}

/// The only finding.
fn finding(name: &str, texts: &[&str]) -> String {
    let findings = checked(name, texts).findings;
    assert_eq!(findings.len(), 1, "{findings:?}");
    findings[0].clone()
}

#[test]
fn the_library_divides_nowhere() {
    let folder = PathBuf::from(env::var_os("CDROM_LIB_DIR").unwrap_or(MADE_BY_MAKE.into()));
    let archive = folder.join("libcdrom.a");
    let shown = archive.display();
    assert!(archive.is_file(), "{shown} is missing: run `make lib`, or name its folder in full in CDROM_LIB_DIR");
    let checked = check_archive(&archive).unwrap();
    assert!(checked.findings.is_empty(), "{}", checked.findings.join("\n"));
    // The exported calls are functions of it, and have more than a few instructions.
    assert!(checked.functions >= 20 && checked.instructions >= 1000, "{} {}", checked.functions, checked.instructions);
}

#[test]
fn an_archive_without_a_division() {
    let stale = "#include <string.h>\nvoid stale(char *bytes, unsigned long n) { memset(bytes, 7, n); }";
    let checked = checked("without", &[NEXT, JUDGE, stale]);
    assert_eq!(checked.findings, [""; 0]);
    assert_eq!(checked.functions, 3);
    assert!(checked.instructions >= 6, "{}", checked.instructions);
}

#[test]
fn a_call_that_divides() {
    let judge = "unsigned cdrom_judge(unsigned a, unsigned b) { return a / b; }";
    let found = finding("call", &[NEXT, judge]);
    assert!(found.starts_with("cdrom_judge: the instruction `div"), "{found}");
    let signed = "int cdrom_judge(int a, int b) { return a % b; }";
    let found = finding("signed", &[NEXT, signed]);
    assert!(found.starts_with("cdrom_judge: the instruction `idiv"), "{found}");
    let real = "double cdrom_judge(double a, double b) { return a / b; }";
    let found = finding("real", &[NEXT, real]);
    assert!(found.starts_with("cdrom_judge: the instruction `divsd"), "{found}");
}

/// In the same member, seen from there alone, or in another one.
#[test]
fn a_helper_that_divides() {
    let helper = "__attribute__((noinline)) static unsigned digit(unsigned a, unsigned b) { return a % b; }";
    let judge =
        format!("{helper}\nunsigned cdrom_judge(unsigned a, unsigned b) {{ return digit(a, b) + digit(b, a); }}");
    let found = finding("helper", &[NEXT, &judge]);
    assert!(found.starts_with("digit") && found.contains("`div"), "{found}");
    let judge =
        "unsigned digit(unsigned, unsigned);\nunsigned cdrom_judge(unsigned a, unsigned b) { return digit(a, b) + 1; }";
    let found = finding("other_helper", &[NEXT, judge, "unsigned digit(unsigned a, unsigned b) { return a % b; }"]);
    assert!(found.starts_with("digit: "), "{found}");
}

/// The compiler makes a multiplication of it: this is why the sources are looked at too.
#[test]
fn a_division_by_a_constant_does_not_show() {
    let judge = "unsigned cdrom_judge(unsigned a) { return a / 10 * 16 + a % 10; }";
    assert_eq!(checked("constant", &[NEXT, judge]).findings, [""; 0]);
}

#[test]
fn a_call_that_is_missing() {
    assert_eq!(finding("missing", &[JUDGE]), "cdrom_next_address: the archive has no code of it");
    let hidden = "static unsigned cdrom_next_address(unsigned a) { return a + 1; }\n\
        unsigned (*step)(unsigned) = cdrom_next_address;";
    assert_eq!(finding("hidden", &[JUDGE, hidden]), "cdrom_next_address: the archive has no code of it");
    let data = "int cdrom_next_address[2] = {1, 2};";
    assert_eq!(finding("data", &[JUDGE, data]), "cdrom_next_address: the archive has no code of it");
}

#[test]
fn something_else_is_open() {
    let judge = "unsigned far(unsigned);\nunsigned cdrom_judge(unsigned a) { return far(a) + 1; }";
    let found = finding("open", &[NEXT, judge]);
    assert!(found.starts_with("far: "), "{found}");
    // A function of that name that only its own member sees does not close it.
    let other = "__attribute__((used)) static unsigned far(unsigned a) { return a; }";
    assert!(finding("not_closed", &[NEXT, judge, other]).starts_with("far: "));
    assert_eq!(checked("closed", &[NEXT, judge, "unsigned far(unsigned a) { return a; }"]).findings, [""; 0]);
}

#[test]
fn no_archive_and_none_that_can_be_read() {
    let trouble = |path: &Path| check_archive(path).err().unwrap();
    let folder = folder("unreadable");
    let missing = folder.join("libcdrom.a");
    assert!(trouble(&missing).starts_with("objdump cannot read"), "{}", trouble(&missing));
    fs::write(folder.join("text"), "no archive").unwrap();
    assert!(trouble(&folder.join("text")).starts_with("objdump cannot read"));
    run(Command::new("ar").current_dir(&folder).args(["rc", "libtext.a", "text"]));
    assert!(trouble(&folder.join("libtext.a")).starts_with("objdump cannot read"));
}

#[test]
fn an_empty_archive() {
    let findings = checked("empty", &[]).findings;
    assert_eq!(findings.len(), 2, "{findings:?}");
}
