//! Every constant and reply number of `include/cdrom.h` stands in the crate with the same value, and no other does; and
//! every macro that takes something has its likeness here. Both are read as text, so that neither can gain or lose a
//! line unseen.

use cdrom::registers::{HCEI, STAERR};
use cdrom::{next_address, raw, Address, Facts, Kind, Refusal, FORM2_BYTES, SECTOR_BYTES, SUBMODE_FORM2, WHY_EDC};
use cdrom::{USER_BYTES, USER_OFFSET, XA_USER_OFFSET};
use std::collections::BTreeMap;

const HEADER: &str = include_str!("../../../include/cdrom.h");
const SOURCES: [&str; 8] = [
    include_str!("../src/bench.rs"),
    include_str!("../src/chip.rs"),
    include_str!("../src/kinds.rs"),
    include_str!("../src/lib.rs"),
    include_str!("../src/raw.rs"),
    include_str!("../src/refusal.rs"),
    include_str!("../src/registers.rs"),
    include_str!("../src/sectors.rs"),
];

/// The reply numbers by their names in the header; 0 is no refusal, and has none in the crate.
const DONE: &str = "DONE";
const REFUSALS: [&str; 9] =
    ["WRONG_LENGTH", "NO_REGISTER", "OUT_OF_RANGE", "BARRED", "SWITCHES", "TOO_FEW", "DECODING_OFF", "HELD", "NO_ROOM"];
/// Another name for a reply number.
const ALIAS: &str = "BAD_ADDRESS";
/// The kinds by their names in the header, from 1 on; in the crate they are those of `Kind`.
const KINDS: [&str; 3] = ["MODE1", "FORM1", "FORM2"];
/// The macros with a parameter. The first two are `Kind::user`, the third is `Kind::of`; the next five take an answer
/// apart, as the crate's results do, three of them into an address; the last is `Facts::verdict` and `Verdict::tarsta`
/// in one.
const MACROS: [&str; 9] = [
    "USER_OFFSET_OF(kind) ((kind) == CDROM_MODE1 ? CDROM_USER_OFFSET : CDROM_XA_USER_OFFSET)",
    "USER_BYTES_OF(kind) ((kind) == CDROM_FORM2 ? CDROM_FORM2_BYTES : CDROM_USER_BYTES)",
    "KIND_OF(sector) \
     ((sector)[15] != 2 ? CDROM_MODE1 : (sector)[18] & CDROM_SUBMODE_FORM2 ? CDROM_FORM2 : CDROM_FORM1)",
    "NUMBER(answer) ((answer) & 0xFF)",
    "RESULT(answer) ((answer) >> 8)",
    "MINUTE(answer) ((answer) >> 24)",
    "SECOND(answer) ((answer) >> 16 & 0xFF)",
    "FRAME(answer) ((answer) >> 8 & 0xFF)",
    "TARSTA_OF(why) ((((why) & 15) + CDROM_STAERR - CDROM_WHY_EDC) & (CDROM_STAERR | CDROM_HCEI))",
];

type Constants = BTreeMap<String, u64>;

/// What each `#define` has behind `CDROM_`.
fn defines() -> impl Iterator<Item = &'static str> {
    HEADER.lines().filter_map(|line| line.strip_prefix("#define CDROM_"))
}

/// Each `#define` of a value; those with a parameter are `MACROS`, and the guard has no value.
fn header() -> Constants {
    let pairs = defines().filter_map(|rest| rest.split_once(' ')).filter(|(name, _)| !name.contains('('));
    let values = pairs.filter(|&(name, _)| name != ALIAS).map(|(name, rest)| (name, first_word(rest)));
    distinct(values.map(|(name, value)| (name.to_string(), number(value))))
}

/// Each public constant of the crate's sources.
fn declared() -> Constants {
    let lines = SOURCES.iter().flat_map(|source| source.lines());
    distinct(lines.filter_map(|line| line.strip_prefix("pub const ")).map(constant))
}

fn constant(declaration: &str) -> (String, u64) {
    let (name, rest) = declaration.split_once(": ").expect("a name and a type");
    let value = rest.split_once(" = ").and_then(|(_, value)| value.strip_suffix(';')).expect("a value");
    (name.to_string(), number(value))
}

fn first_word(text: &str) -> &str {
    text.split_whitespace().next().expect("a value")
}

fn number(text: &str) -> u64 {
    let read = match text.strip_prefix("0x") {
        Some(digits) => u64::from_str_radix(digits, 16),
        None => text.parse(),
    };
    read.unwrap_or_else(|_| panic!("{text} is no number"))
}

fn distinct(pairs: impl Iterator<Item = (String, u64)>) -> Constants {
    let mut constants = Constants::new();
    for (name, value) in pairs {
        assert_eq!(constants.insert(name.clone(), value), None, "{name} stands twice");
    }
    constants
}

/// `WRONG_LENGTH` of the header is `WrongLength` here.
fn camel(name: &str) -> String {
    name.split('_').map(|word| word[..1].to_string() + &word[1..].to_lowercase()).collect()
}

#[test]
fn constants() {
    let mut header = header();
    for name in REFUSALS.iter().chain([&DONE]).chain(&KINDS) {
        header.remove(*name).expect("a reply number or a kind of the header");
    }
    assert!(header.len() > 60, "only {} constants were found", header.len());
    assert_eq!(declared(), header);
}

#[test]
fn reply_numbers() {
    let header = header();
    assert_eq!(header[DONE], 0);
    for (name, number) in REFUSALS.into_iter().zip(1..) {
        assert_eq!(header[name], u64::from(number), "{name}");
        let refusal = Refusal::from_number(number).expect("a refusal");
        assert_eq!(format!("{refusal:?}"), camel(name));
    }
    assert!(HEADER.contains(&format!("#define CDROM_{ALIAS} CDROM_OUT_OF_RANGE\n")));
}

#[test]
fn kinds() {
    let header = header();
    for (name, number) in KINDS.into_iter().zip(1..) {
        assert_eq!(header[name], u64::from(number), "{name}");
        let kind = Kind::from_number(number).expect("a kind");
        assert_eq!(format!("{kind:?}"), camel(name));
    }
}

#[test]
fn macros() {
    let with_parameter = |define: &&str| define.split(' ').next().is_some_and(|name| name.contains('('));
    assert_eq!(defines().filter(with_parameter).collect::<Vec<_>>(), MACROS);
    for why in 0..=15 {
        let tarsta_of = ((u16::from(why) & 15) + STAERR - u16::from(WHY_EDC)) & (STAERR | HCEI);
        let facts = Facts::from_why(why).expect("0 to 15 are facts");
        assert_eq!(tarsta_of, facts.verdict().tarsta(), "{why}");
    }
}

#[test]
fn macros_of_addresses() {
    let address = Address { minute: 12, second: 34, frame: 56 };
    // SAFETY: nothing is lent to the call.
    let answer = unsafe { raw::cdrom_next_address(address.minute, address.second, address.frame) };
    let parts = [answer >> 24, answer >> 16 & 0xFF, answer >> 8 & 0xFF];
    let next = next_address(address).expect("an address");
    assert_eq!(parts, [next.minute, next.second, next.frame].map(u32::from));
    assert_eq!(parts, [12, 34, 57]);
}

#[test]
fn macros_of_kinds() {
    for kind in [Kind::Mode1, Kind::Form1, Kind::Form2] {
        let offset = if kind == Kind::Mode1 { USER_OFFSET } else { XA_USER_OFFSET };
        let bytes = if kind == Kind::Form2 { FORM2_BYTES } else { USER_BYTES };
        assert_eq!(kind.user(), offset..offset + bytes);
    }
    let mut sector = [0; SECTOR_BYTES];
    for (mode, submode) in (0..=255).flat_map(|mode| (0..=255).map(move |submode| (mode, submode))) {
        (sector[15], sector[18]) = (mode, submode);
        let form = if sector[18] & SUBMODE_FORM2 != 0 { Kind::Form2 } else { Kind::Form1 };
        let kind_of = if sector[15] != 2 { Kind::Mode1 } else { form };
        assert_eq!(Kind::of(&sector), Ok(kind_of), "{mode}, {submode}");
    }
}
