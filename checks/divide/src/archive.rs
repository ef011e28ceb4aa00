//! The archive: no instruction of it divides.
//!
//! Every function of it is looked at, which is more than the two calls that must not divide, and what they reach: so
//! nothing need be known of the calls inside it, direct or not. What it leaves open is code that is not looked at, and
//! may be `memset` alone.

use crate::disassembly::{self, Function};
use crate::symbols::Symbols;
use std::path::Path;
use std::process::Command;

/// The calls that step to the next address and that compare it. An archive without them shows nothing.
const CALLS: [&str; 2] = ["cdrom_next_address", "cdrom_judge"];
const MAY_BE_OPEN: [&str; 1] = ["memset"];

pub struct Archive {
    pub findings: Vec<String>,
    pub functions: usize,
    pub instructions: usize,
}

pub fn check_archive(path: &Path) -> Result<Archive, String> {
    let functions = disassembly::read(&printed("objdump", &["-d", "--no-show-raw-insn"], path)?);
    let symbols = Symbols::read(&printed("nm", &["-P"], path)?);
    let findings = [divisions(&functions), missing(&functions, &symbols), open(&symbols)].concat();
    let instructions = functions.iter().map(|function| function.instructions).sum();
    Ok(Archive { findings, functions: functions.len(), instructions })
}

fn divisions(functions: &[Function]) -> Vec<String> {
    let of_function = |function: &Function| {
        let symbol = function.symbol.clone();
        let told = move |text: &String| format!("{symbol}: the instruction `{text}`");
        function.faults.iter().map(told).collect::<Vec<_>>()
    };
    functions.iter().flat_map(of_function).collect()
}

/// A call counts if it is named as code and its instructions were seen.
fn missing(functions: &[Function], symbols: &Symbols) -> Vec<String> {
    let is_seen = |call: &str| functions.iter().any(|function| function.symbol == call && function.instructions > 0);
    let lost = CALLS.into_iter().filter(|call| !symbols.has_code_of(call) || !is_seen(call));
    lost.map(|call| format!("{call}: the archive has no code of it")).collect()
}

fn open(symbols: &Symbols) -> Vec<String> {
    let further = symbols.open().filter(|name| !MAY_BE_OPEN.contains(&name.as_str()));
    further.map(|name| format!("{name}: called or read, and not in the archive, so that it is not looked at")).collect()
}

/// What a program of binutils prints of the archive, in words that do not change with the language.
fn printed(program: &str, options: &[&str], path: &Path) -> Result<String, String> {
    let mut command = Command::new(program);
    let command = command.args(options).arg("--").arg(path).env("LC_ALL", "C");
    let output = command.output().map_err(|error| format!("{program} (of binutils) does not run: {error}"))?;
    if output.status.success() {
        return Ok(String::from_utf8_lossy(&output.stdout).into_owned());
    }
    let told = String::from_utf8_lossy(&output.stderr).trim().to_string();
    Err(format!("{program} cannot read {}: {told}", path.display()))
}
