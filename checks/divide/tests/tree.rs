//! The tree as it is, and with divisions put into it.

use divide::{check_sources, list, Sources, Tree};
use std::path::Path;

const HEADER: &str = "crates/sector/src/header.rt";
const CHECKS: &str = "crates/sector/src/checks.rt";
const LAYOUT: &str = "crates/sector/src/layout.rt";
const EXPORTS: &str = "crates/exports/src/lib.rt";
const RING: &str = "crates/ring/src/lib.rt";
const TRANSFER: &str = "crates/controller/src/transfer.rt";
const EDC: &str = "crates/edc/src/lib.rt";

fn tree() -> Tree {
    Tree::read(Path::new(concat!(env!("CARGO_MANIFEST_DIR"), "/../.."))).unwrap()
}

/// The tree with some lines before another text of a file, which must be there.
fn with_text(file: &str, before: &str, text: &str) -> Tree {
    replaced(file, before, &format!("{text}\n{before}"))
}

fn replaced(file: &str, old: &str, new: &str) -> Tree {
    let mut tree = tree();
    let text = tree.files.get_mut(file).unwrap_or_else(|| panic!("{file} is missing"));
    assert!(text.contains(old), "{file} has no `{old}`");
    *text = text.replacen(old, new, 1);
    tree
}

/// The tree with a line at the front of a function's body: behind the first line after its name that is a brace and
/// nothing else.
fn with_line(file: &str, function: &str, line: &str) -> Tree {
    let mut tree = tree();
    put_line(&mut tree, file, function, line);
    tree
}

fn put_line(tree: &mut Tree, file: &str, function: &str, line: &str) {
    let text = tree.files.get_mut(file).unwrap_or_else(|| panic!("{file} is missing"));
    let name = text.find(&format!("fn {function}(")).unwrap_or_else(|| panic!("{file} has no {function}"));
    let lines = text[name..].split_inclusive('\n');
    let front: usize = lines.take_while(|line| line.trim() != "{").map(str::len).sum();
    let brace = name + front + text[name + front..].find('{').expect("a body");
    text.insert_str(brace + 1, &format!("\n{line}\n"));
}

fn checked(tree: &Tree) -> Sources {
    check_sources(tree).unwrap()
}

/// Fault and chain of what is found in a function.
fn found(tree: &Tree, function: &str) -> Vec<(String, String)> {
    let findings = checked(tree).findings.into_iter().filter(|finding| finding.function == function);
    findings.map(|finding| (finding.fault, finding.chain)).collect()
}

/// Function, fault and chain of all that is found: the lines alone may differ.
fn all_found(tree: &Tree) -> Vec<(String, String, String)> {
    checked(tree).findings.into_iter().map(|finding| (finding.function, finding.fault, finding.chain)).collect()
}

fn nothing_may(division: &str) -> String {
    format!("`{division}`, where nothing may be divided")
}

fn no_power(division: &str) -> String {
    format!("`{division}`, not by a power of two that is written out")
}

#[test]
fn nothing_is_found_in_the_tree() {
    let told: Vec<String> = checked(&tree()).findings.iter().map(ToString::to_string).collect();
    assert!(told.is_empty(), "{}", told.join("\n"));
}

/// A rule whose roots reach nothing would always hold.
#[test]
fn the_roots_reach_what_they_call() {
    let sources = checked(&tree());
    let expected = "sector::Address::next sector::Address::valid sector::address_holds sector::is_bcd_of \
        exports::cdrom_next_address exports::at exports::packed exports::packed_address";
    for title in expected.split_whitespace() {
        assert!(sources.from_roots.contains(&title.to_string()), "{title} of {:?}", sources.from_roots);
    }
}

#[test]
fn the_exported_calls_reach_most_functions() {
    let sources = checked(&tree());
    let expected = "scramble::scramble scramble::scramble_into scramble::table edc::edc edc::Ring::put \
        ring::after controller::within_words controller::Controller::write_acctl encoding::decode \
        encoding::encode chip::Chip::sound burst::host_words sector::Address::next sector::address_holds \
        sector::Kind::form sector::Kind::try_from slices::word_at";
    for title in expected.split_whitespace() {
        assert!(sources.from_calls.contains(&title.to_string()), "{title} of {:?}", sources.from_calls);
    }
    assert!(sources.calls >= 20, "{}", sources.calls);
    assert!(!sources.from_calls.contains(&"syntax::Writer::decimal".to_string()), "the bench prints, and no other call");
}

#[test]
fn digits_by_division() {
    let tree = with_line(HEADER, "is_bcd_of", "let wrong = byte as u16 == (n / 10) * 16 + n % 10;");
    let from_root = "address_holds -> is_bcd_of".to_string();
    let from_call = format!("cdrom_judge -> judge -> judgement_of -> {from_root}");
    let expected = [
        (nothing_may("/ 10"), from_root.clone()),
        (nothing_may("% 10"), from_root),
        (no_power("/ 10"), from_call.clone()),
        (no_power("% 10"), from_call),
    ];
    assert_eq!(found(&tree, "is_bcd_of"), expected);
    let file_and_line = &checked(&tree).findings[0].place;
    let line = tree.files[HEADER].lines().position(|line| line.contains("let wrong")).unwrap() + 1;
    assert_eq!(*file_and_line, format!("{HEADER}:{line}"));
}

/// Sealing's digits are reached as soon as the comparison takes them.
#[test]
fn digits_of_sealing() {
    let tree = with_line(CHECKS, "address_holds", "let expected = address.bytes();");
    let chain = "address_holds -> Address::bytes -> to_bcd".to_string();
    let expected = [(nothing_may("/ 10"), chain.clone()), (nothing_may("% 10"), chain)];
    assert_eq!(found(&tree, "to_bcd")[..2], expected);
}

#[test]
fn a_remainder_in_a_root() {
    let tree = with_line(HEADER, "next", "let frame = (self.frame + 1) % 75;");
    assert_eq!(found(&tree, "Address::next")[0], (nothing_may("% 75"), "Address::next".to_string()));
    let tree = with_line(EXPORTS, "cdrom_next_address", "let tens = minute / 10;");
    assert_eq!(found(&tree, "cdrom_next_address")[0], (nothing_may("/ 10"), "cdrom_next_address".to_string()));
    let tree = with_line(CHECKS, "address_holds", "let mut n = 7; n /= 3;");
    assert_eq!(found(&tree, "address_holds")[0], (nothing_may("/= 3"), "address_holds".to_string()));
}

#[test]
fn a_remainder_in_a_method_that_is_reached() {
    let mut tree = with_line(HEADER, "is_bcd_of", "let digits = Digits { n };\nlet ones = digits.ones(10);");
    let text = "\nstruct Digits { n: u16 }\nimpl Digits { fn ones(self, w: u16) -> u16 { self.n % w } }\n";
    tree.files.get_mut(HEADER).unwrap().push_str(text);
    let chain = "address_holds -> is_bcd_of -> Digits::ones".to_string();
    assert_eq!(found(&tree, "Digits::ones")[0], (nothing_may("% an expression"), chain));
}

/// By a power of two, which rule 1 forbids and rule 2 does not; and in another crate.
#[test]
fn a_division_by_two() {
    let mut tree = with_line(HEADER, "is_bcd_of", "let code = edc::edc(&[byte]);");
    put_line(&mut tree, EDC, "edc", "let half = bytes.len() / 2;");
    let chain = "address_holds -> is_bcd_of -> edc".to_string();
    assert_eq!(found(&tree, "edc")[0], (nothing_may("/ 2"), chain));
    let tree = with_line(HEADER, "is_bcd_of", "let low = byte % 0x10;");
    assert_eq!(found(&tree, "is_bcd_of"), [(nothing_may("% 0x10"), "address_holds -> is_bcd_of".to_string())]);
    let tree = with_line(HEADER, "valid", "let low = self.minute % 16;");
    let chain = "cdrom_next_address -> Address::valid".to_string();
    assert_eq!(found(&tree, "Address::valid"), [(nothing_may("% 16"), chain)]);
}

/// In forms of code in which it could be passed over.
#[test]
fn a_division_in_other_forms() {
    let lines = [
        "let tens = Some(n).map_or(0, |n| n / 10);",
        "let Some(tens) = Some(n / 10) else { return false };",
        "if matches!(n / 10, 1 | 2) { return false; }",
        "#[tactic(auto)]\nlet [a, b] = [n / 10; 2];",
        "let text = \"a \\\n \\\" b\"; let sign = '\"'; let tens = n / 10;",
        "let tens = |n: u16| requires { n / 3 < 9 } { n / 10 };",
        "let tens = Address { minute: n / 10, ..Address::default() };",
    ];
    for line in lines {
        let faults = found(&with_line(HEADER, "is_bcd_of", line), "is_bcd_of");
        let chain = "address_holds -> is_bcd_of".to_string();
        assert!(faults.contains(&(nothing_may("/ 10"), chain)), "{line}: {faults:?}");
        assert!(!faults.iter().any(|(fault, _)| fault.contains("/ 3")), "{line}: {faults:?}");
    }
}

#[test]
fn a_division_behind_other_forms_of_calls() {
    let text = "
        const TEN: u16 = 10;
        fn tens<const N: u16>(n: u16) -> u16 { n / N }
        trait Tens { fn tens(self) -> u16; }
        impl Tens for u16 { fn tens(self) -> u16 { self / TEN } }
        impl From<Address> for [u8; 3] { fn from(address: Address) -> [u8; 3] { [address.minute / 10; 3] } }";
    let lines = [
        ("is_bcd_of", "let a = tens::<TEN>(n);", "tens", "address_holds -> is_bcd_of -> tens"),
        ("is_bcd_of", "let a = n.tens();", "u16::tens", "address_holds -> is_bcd_of -> u16::tens"),
        ("is_bcd_of", "let a = <u16 as Tens>::tens(n);", "u16::tens", "address_holds -> is_bcd_of -> u16::tens"),
        ("is_bcd_of", "let a = f(Tens::tens);", "u16::tens", "address_holds -> is_bcd_of -> u16::tens"),
        ("valid", "let a: [u8; 3] = self.into();", "[::from", "Address::next -> Address -> [::from"),
    ];
    for (function, line, title, chain) in lines {
        let mut tree = with_line(HEADER, function, line);
        tree.files.get_mut(HEADER).unwrap().push_str(text);
        let faults = found(&tree, title);
        assert!(faults.iter().any(|(_, other)| other == chain), "{line}: {faults:?}");
    }
}

#[test]
fn a_division_in_a_function_of_a_trait() {
    let front = "fn try_from(number: u16) -> Result<Kind, Refusal> {";
    let tree = replaced(LAYOUT, front, &format!("{front} let third = number / 3;"));
    let faults = found(&tree, "Kind::try_from");
    assert!(faults.iter().any(|(fault, _)| *fault == no_power("/ 3")), "{faults:?}");
}

#[test]
fn a_constant_that_is_divided() {
    let mut tree = with_line(HEADER, "is_bcd_of", "let tens = TENS;");
    tree.files.get_mut(HEADER).unwrap().push_str("\nconst TENS: u16 = 100 / 10;\n");
    let chain = "address_holds -> is_bcd_of -> TENS".to_string();
    assert_eq!(found(&tree, "TENS")[0], (nothing_may("/ 10"), chain));
}

#[test]
fn code_that_is_not_here() {
    let kit = with_line(HEADER, "is_bcd_of", "std::mem::swap(&mut a, &mut b);");
    let (fault, chain) = &found(&kit, "is_bcd_of")[0];
    assert_eq!(fault, "calls `std::mem::swap`, whose source is not here");
    assert_eq!(chain, "address_holds -> is_bcd_of");
    let unlisted = with_line(HEADER, "is_bcd_of", "bytes::copy(&a, &mut b);");
    let (fault, chain) = &found(&unlisted, "is_bcd_of")[0];
    assert_eq!(fault, "calls `bytes::copy`, which is neither a function of the crates nor of the kit");
    assert_eq!(chain, "address_holds -> is_bcd_of");
    let method = with_line(HEADER, "is_bcd_of", "let low = n.rem_euclid(10);");
    let faults: Vec<String> = found(&method, "is_bcd_of").into_iter().map(|(fault, _)| fault).collect();
    assert_eq!(
        faults,
        ["calls `.rem_euclid`, whose source is not here", "calls `.rem_euclid`, which divides by its name"]
    );
    let value = with_line(HEADER, "is_bcd_of", "let f = to_bcd; f(n);");
    assert_eq!(found(&value, "is_bcd_of")[0].0, "calls `f`, which is neither a function of the crates nor of the kit");
}

#[test]
fn a_remainder_of_the_ring() {
    let tree = with_line(RING, "after", "return ((t as u32 + k as u32) % n as u32) as u16;");
    let found = found(&tree, "after");
    let [(fault, chain)] = &found[..] else { panic!("{found:?}") };
    assert_eq!(*fault, no_power("% an expression"));
    assert_eq!(chain, "cdrom_chip_sector -> Chip::sector -> conclude -> Place::step -> after");
}

#[test]
fn a_division_of_a_start_and_one_in_the_kit() {
    let tree = with_line(TRANSFER, "within_words", "let most = 32767 / words;");
    let found_in_start = found(&tree, "within_words");
    let [(fault, chain)] = &found_in_start[..] else { panic!("{found_in_start:?}") };
    assert_eq!(*fault, no_power("/ an expression"));
    assert!(chain.ends_with("Controller::start -> Controller::start_blocks -> within_words"), "{chain}");
    let tree = with_line(EDC, "edc", "let n = std::num::wrapping_div_u32(7, 3);");
    let expected = "calls `std::num::wrapping_div_u32`, which divides by its name".to_string();
    assert_eq!(found(&tree, "edc"), [(expected, "cdrom_edc -> edc".to_string())]);
}

#[test]
fn what_is_no_code_is_not_found() {
    let unchanged = all_found(&tree());
    let comment = with_line(HEADER, "is_bcd_of", "// n / 10 and n % 10\n let m = n; // n / 10");
    assert_eq!(all_found(&comment), unchanged);
    let string = with_line(HEADER, "is_bcd_of", "let text = b\"n / 10 \\\" % 10\"; let sign = b'/';");
    assert_eq!(all_found(&string), unchanged);
    let clause = replaced(
        HEADER,
        "fn is_bcd_of(byte: u8, n: u16) -> bool",
        "fn is_bcd_of(byte: u8, n: u16) -> bool\n ensures { λ r. ⌜ { n / 10 } % 3 ≡ f(r) ⌝ }",
    );
    assert_eq!(all_found(&clause), unchanged);
    let ghost = with_text(HEADER, "use crate::{Address, Subheader};", "ghost use Prim.Native.Nat.{_/_, _%_, _*_};");
    assert_eq!(all_found(&ghost), unchanged);
}

#[test]
fn a_root_that_is_renamed() {
    let roots = [
        (HEADER, "pub fn next(", "pub fn following(", "Address::next"),
        (CHECKS, "fn address_holds(", "fn address_fits(", "address_holds"),
        (EXPORTS, "fn cdrom_next_address(", "fn cdrom_following(", "cdrom_next_address"),
    ];
    for (file, old, new, title) in roots {
        let faults = found(&replaced(file, old, new), title);
        assert_eq!(faults.len(), 1, "{title}");
        assert!(faults[0].0.starts_with("is missing"), "{faults:?}");
    }
}

#[test]
fn a_tree_without_exported_calls() {
    let mut tree = tree();
    let files = tree.files.iter_mut().filter(|(file, _)| file.starts_with("crates/exports/"));
    files.for_each(|(_, text)| *text = text.replace("#[unsafe(no_mangle)]", ""));
    assert!(found(&tree, "every exported call of a drive")[0].0.starts_with("is missing"));
}

#[test]
fn the_listing_has_every_division() {
    let tree = with_line(RING, "after", "let odd = (t % n) / 3;");
    let text = list(&tree).unwrap();
    let line = tree.files[RING].lines().position(|line| line.contains("t % n")).unwrap() + 1;
    assert!(text.contains(&format!("{RING}\n  after: % an expression (line {line}), / 3 (line {line}) [")), "{text}");
    let bench =
        text.lines().find(|line| line.ends_with(": cdrom_bench, program bench")).expect("what only the bench reaches");
    let letter = bench.split(':').next().unwrap();
    let decimal = text.lines().find(|line| line.starts_with("  Writer::decimal: / 10 (line ")).expect("decimal numbers");
    assert!(decimal.ends_with(&format!("[{letter}]")), "{text}");
}
