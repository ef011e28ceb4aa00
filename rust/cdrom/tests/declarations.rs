//! Every function that `include/cdrom.h` declares is declared in `src/raw.rs`, and no other: with the same parameters
//! in their order, by name and type, and the same result. Both are read as text.

use std::collections::BTreeMap;

const HEADER: &str = include_str!("../../../include/cdrom.h");
const RAW: &str = include_str!("../src/raw.rs");
/// The record as the two have it.
const RECORD: (&str, &str) = ("cdrom_chip", "[u16; CHIP_WORDS]");

/// Of each function its parameters as Rust has them, `name: type`, and last the type of its result.
type Functions = BTreeMap<String, Vec<String>>;

/// The header without comments and preprocessor lines.
fn header_code() -> String {
    let mut pieces = HEADER.split("/*");
    let first = pieces.next().unwrap_or_default().to_string();
    let code = pieces.map(|piece| piece.split_once("*/").expect("a comment's end").1).fold(first, |all, one| all + one);
    code.lines().filter(|line| !line.starts_with('#')).collect::<Vec<_>>().join(" ")
}

/// `RESULT NAME(TYPE NAME, ..);`
fn of_header() -> Functions {
    let code = header_code();
    let statements = code.split(';').filter_map(|part| part.rsplit(['{', '}']).next());
    let functions: Functions = statements.filter(|part| part.contains('(')).map(of_c).collect();
    assert_eq!(functions.len(), code.matches('(').count(), "each parenthesis is a function's");
    functions
}

fn of_c(declaration: &str) -> (String, Vec<String>) {
    let (front, rest) = declaration.split_once('(').expect("parameters");
    let parameters = rest.strip_suffix(')').expect("the parameters' end").split(',').map(typed);
    let (name, result) = typed(front);
    (name, parameters.map(|(name, kind)| format!("{name}: {kind}")).chain([result]).collect())
}

/// Name and Rust type of `const uint8_t *name`; so many elements, `const uint8_t name[4]`, are lent as an array.
fn typed(declared: &str) -> (String, String) {
    let words: Vec<&str> = declared.split_whitespace().collect();
    let (name, kind) = words.split_last().expect("a type and a name");
    let rust = |name: &str| match name {
        "uint8_t" => "u8".to_string(),
        "uint16_t" => "u16".to_string(),
        "uint32_t" => "u32".to_string(),
        "size_t" => "usize".to_string(),
        other => other.replace(RECORD.0, RECORD.1),
    };
    let array = name.strip_suffix(']').and_then(|name| name.split_once('['));
    match (name.strip_prefix('*'), array, kind) {
        (None, None, [plain]) => (name.to_string(), rust(plain)),
        (Some(name), None, [plain]) => (name.to_string(), format!("*mut {}", rust(plain))),
        (Some(name), None, ["const", plain]) => (name.to_string(), format!("*const {}", rust(plain))),
        (None, Some((name, count)), ["const", plain]) => {
            (name.to_string(), format!("*const [{}; {count}]", rust(plain)))
        }
        _ => panic!("{declared}: no such type is known here"),
    }
}

/// `pub fn NAME(NAME: TYPE, ..) -> RESULT;`
fn of_raw() -> Functions {
    let declarations = RAW.split("pub fn ").skip(1).map(of_rust);
    let functions: Functions = declarations.collect();
    assert_eq!(functions.len(), RAW.matches(" fn ").count(), "each function is public");
    functions
}

fn of_rust(text: &str) -> (String, Vec<String>) {
    let (name, rest) = text.split_once('(').expect("parameters");
    let (parameters, rest) = rest.split_once(") -> ").expect("a result");
    let (result, _) = rest.split_once(';').expect("the declaration's end");
    let parameters = parameters.split(',').map(str::trim).filter(|parameter| !parameter.is_empty());
    (name.to_string(), parameters.chain([result]).map(str::to_string).collect())
}

#[test]
fn declarations() {
    let header = of_header();
    assert!(header.len() > 20, "only {} functions were found", header.len());
    assert_eq!(of_raw(), header);
}
