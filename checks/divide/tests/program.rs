//! The program's arguments, exit codes and words, on a small tree.

mod common;

use common::{archive, folder, JUDGE, NEXT};
use std::fs;
use std::ops::Deref;
use std::path::{Path, PathBuf};
use std::process::{Command, Output};

const SECTOR: &str = "
    ghost use Prim.Native.Nat.{_%_};
    pub struct Address { pub frame: u16 }
    impl Address {
        pub fn next(self) -> Address ensures { λ r. ⌜ r ≡ self % 75 ⌝ } { Address { frame: self.frame + 1 } }
    }
    pub fn address_holds(sector: &[u8]) -> bool { sector.len() == 2352 }";
const EXPORTS: &str = "
    #[no_mangle]
    pub extern \"C\" fn cdrom_next_address(frame: u16) -> u16 { low(frame) }
    #[no_mangle]
    pub extern \"C\" fn cdrom_judge(sector: &[u8]) -> u16 { bytes::copy(sector); high(7) }
    fn low(n: u16) -> u16 { n }
    fn high(n: u16) -> u16 { n / 256 }";

fn divide(arguments: &[&str]) -> Output {
    Command::new(env!("CARGO_BIN_EXE_divide")).args(arguments).output().expect("the program starts")
}

/// A tree that is removed with the value: the gate refuses a list of crates, or a source, that lies elsewhere in the
/// repository than its own.
struct Tree(PathBuf);

impl Deref for Tree {
    type Target = Path;

    fn deref(&self) -> &Path {
        &self.0
    }
}

impl Drop for Tree {
    fn drop(&mut self) {
        let _ = fs::remove_dir_all(&self.0);
    }
}

/// A tree of two crates, the second with this text.
fn tree(name: &str, exports: &str) -> Tree {
    let root = folder(name);
    fs::write(root.join("crates.txt"), "# two\nsector:\nexports: sector bytes\n").unwrap();
    for (crate_name, text) in [("sector", SECTOR), ("exports", exports)] {
        let folder = root.join("crates").join(crate_name).join("src");
        fs::create_dir_all(&folder).unwrap();
        fs::write(folder.join("lib.rt"), text).unwrap();
    }
    Tree(root)
}

fn text(path: &Path) -> &str {
    path.to_str().expect("a path of letters")
}

fn printed(output: &Output) -> String {
    String::from_utf8_lossy(&output.stdout).into_owned()
}

fn told(output: &Output) -> String {
    String::from_utf8_lossy(&output.stderr).into_owned()
}

#[test]
fn both_sides_without_a_finding() {
    let output = divide(&[text(&tree("well", EXPORTS)), text(&archive("well_archive", &[NEXT, JUDGE]))]);
    assert_eq!(output.status.code(), Some(0), "{}", told(&output));
    assert_eq!(told(&output), "");
    let printed = printed(&output);
    let sources = "sources: 4 functions reached from the step and the comparison of addresses, none divides; \
        4 from 2 exported calls of a drive, by powers of two alone; of the kit: bytes::copy";
    assert_eq!(printed.lines().next(), Some(sources));
    assert!(printed.contains(" of 2 functions, none divides\n"), "{printed}");
}

#[test]
fn findings_of_both_sides() {
    let sources = tree("both", &EXPORTS.replace("{ n }", "{ n % 75 }"));
    let judge = "unsigned cdrom_judge(unsigned a, unsigned b) { return a / b; }";
    let output = divide(&[text(&sources), text(&archive("both_archive", &[NEXT, judge]))]);
    assert_eq!(output.status.code(), Some(1));
    assert_eq!(printed(&output), "");
    let told = told(&output);
    let expected = "crates/exports/src/lib.rt:6: low: `% 75`, where nothing may be divided (cdrom_next_address -> low)";
    assert!(told.contains(expected), "{told}");
    assert!(told.contains("cdrom_judge: the instruction `div"), "{told}");
}

#[test]
fn a_finding_of_one_side_is_enough() {
    let good = archive("one_good", &[NEXT, JUDGE]);
    let bad = archive("one_bad", &[NEXT]);
    let dividing = tree("one_dividing", &EXPORTS.replace("256", "10"));
    assert_eq!(divide(&[text(&dividing), text(&good)]).status.code(), Some(1));
    assert_eq!(divide(&[text(&tree("one_well", EXPORTS)), text(&bad)]).status.code(), Some(1));
}

#[test]
fn what_cannot_be_read() {
    let (root, archive) = (tree("unread", EXPORTS), archive("unread_archive", &[NEXT, JUDGE]));
    let no_root = divide(&["no/such/folder", text(&archive)]);
    assert_eq!(no_root.status.code(), Some(1));
    assert!(told(&no_root).contains("no/such/folder/crates.txt"), "{}", told(&no_root));
    let no_archive = divide(&[text(&root), "no/such/libcdrom.a"]);
    assert_eq!(no_archive.status.code(), Some(1));
    assert!(told(&no_archive).contains("objdump cannot read no/such/libcdrom.a"), "{}", told(&no_archive));
    let other = tree("unread_other", "union A {}");
    assert!(told(&divide(&[text(&other), text(&archive)])).contains("crates/exports/src/lib.rt:1: `union`"));
}

#[test]
fn without_binutils() {
    let (root, archive) = (tree("alone", EXPORTS), archive("alone_archive", &[NEXT, JUDGE]));
    let mut command = Command::new(env!("CARGO_BIN_EXE_divide"));
    let output = command.args([text(&root), text(&archive)]).env("PATH", folder("no_programs")).output().unwrap();
    assert_eq!(output.status.code(), Some(1));
    assert!(told(&output).contains("objdump (of binutils) does not run"), "{}", told(&output));
}

#[test]
fn the_listing() {
    let output = divide(&["--list", text(&tree("listed", EXPORTS))]);
    assert_eq!(output.status.code(), Some(0), "{}", told(&output));
    let expected = "A: cdrom_judge\n\ncrates/exports/src/lib.rt\n  high: / 256 (line 7) [A]\n";
    assert!(printed(&output).ends_with(expected), "{}", printed(&output));
}

#[test]
fn help_and_wrong_arguments() {
    let help = divide(&["--help"]);
    assert_eq!(help.status.code(), Some(0));
    assert!(printed(&help).starts_with("usage: divide ROOT ARCHIVE\n"));
    for arguments in [&[][..], &["root"], &["--list"], &["--lists", "root"], &["a", "b", "c"], &["--help", "b"]] {
        let output = divide(arguments);
        assert_eq!(output.status.code(), Some(2), "{arguments:?}");
        assert!(told(&output).starts_with("usage: "), "{arguments:?}");
    }
}
