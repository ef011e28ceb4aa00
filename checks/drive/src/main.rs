//! Drives a bench program by random scripts and compares every line that it
//! prints with the model's.
//!
//! `drive PROGRAM SEED LINES [SCRIPTS]`; with `-` for PROGRAM the model runs
//! alone. With SCRIPTS that many scripts are run, of seeds from SEED on, and
//! it is a failure too if something that is counted happened in none of them.
//! What happened is told on standard error. After a difference the script up
//! to it is on standard output, ready to be fed again.

mod happenings;

use drive::{joined, run_program};
use happenings::{Happenings, Step};
use model::{parse, Bench, Writer};
use std::io::{self, Write};
use std::process::{ExitCode, Output};

struct Task<'a> {
    path: &'a str,
    seed: u64,
    lines: usize,
    scripts: Option<u64>,
}

struct Script {
    lines: Vec<Vec<u8>>,
    expected: Vec<String>,
}

struct Difference {
    /// Lines that must be fed to see it.
    lines: usize,
    expected: String,
    found: String,
}

fn main() -> ExitCode {
    let arguments: Vec<String> = std::env::args().skip(1).collect();
    let Some(task) = read_arguments(&arguments) else {
        eprintln!("usage: drive PROGRAM SEED LINES [SCRIPTS] (PROGRAM - runs the model alone)");
        return ExitCode::from(2);
    };
    match task.run() {
        Ok(()) => ExitCode::SUCCESS,
        Err(trouble) => {
            eprintln!("drive: {trouble}");
            ExitCode::FAILURE
        }
    }
}

fn read_arguments(arguments: &[String]) -> Option<Task<'_>> {
    let (path, seed, lines, scripts) = match arguments {
        [path, seed, lines] => (path, seed, lines, None),
        [path, seed, lines, scripts] => (path, seed, lines, Some(scripts)),
        _ => return None,
    };
    let scripts = scripts.map(|scripts| scripts.parse()).transpose().ok()?;
    Some(Task { path, seed: seed.parse().ok()?, lines: lines.parse().ok()?, scripts })
}

impl Task<'_> {
    fn run(&self) -> Result<(), String> {
        let mut happenings = Happenings::default();
        let scripts = self.scripts.unwrap_or(1);
        for number in 0..scripts {
            let seed = self.seed.wrapping_add(number);
            let script = make_script(seed, self.lines, &mut happenings);
            if self.path != "-" {
                self.compare(&script, seed).map_err(|trouble| format!("seed {seed}: {trouble}"))?;
            }
        }
        eprint!("{}", happenings.report());
        let missing = happenings.missing();
        if self.scripts.is_some() && !missing.is_empty() {
            return Err(format!("never happened: {}", missing.join("; ")));
        }
        if self.path != "-" {
            eprintln!("{} lines compared, no difference", scripts * self.lines as u64);
        }
        Ok(())
    }

    fn compare(&self, script: &Script, seed: u64) -> Result<(), String> {
        let input = joined(&script.lines, seed.is_multiple_of(2));
        let output = run_program(self.path, input, self.lines);
        judge(script, &output.map_err(|error| format!("{}: {error}", self.path))?)
    }
}

fn make_script(seed: u64, count: usize, happenings: &mut Happenings) -> Script {
    let (mut writer, mut bench) = (Writer::new(seed), Bench::new());
    let mut script = Script { lines: Vec::new(), expected: Vec::new() };
    for _ in 0..count {
        let (before, disc) = (bench.chip().copied(), bench.disc());
        let line = writer.next_line(before.as_ref(), &disc);
        let printed = bench.line(&line);
        happenings.note(&Step {
            line: &line,
            call: parse(&line),
            answer: field(&printed, "answer="),
            out: field(&printed, "out="),
            before,
            after: bench.chip().copied(),
            disc,
        });
        script.lines.push(line);
        script.expected.push(printed);
    }
    script
}

fn field(printed: &str, key: &str) -> u16 {
    let value = printed.split(' ').find_map(|field| field.strip_prefix(key));
    value.and_then(|digits| digits.parse().ok()).expect("the model prints every field")
}

/// A program that prints every line rightly and then fails has failed.
fn judge(script: &Script, output: &Output) -> Result<(), String> {
    let status = output.status;
    if let Some(difference) = first_difference(&script.expected, &output.stdout) {
        let _ = io::stdout().write_all(&joined(&script.lines[..difference.lines], true));
        return Err(format!("{}\nthe program ended with {status}", tell(script, &difference)));
    }
    if !status.success() {
        return Err(format!("no difference, but the program ended with {status}"));
    }
    Ok(())
}

fn tell(script: &Script, difference: &Difference) -> String {
    let last = difference.lines.checked_sub(1).map(|place| String::from_utf8_lossy(&script.lines[place]));
    format!(
        "difference at line {}\n  script:  {}\n  model:   {}\n  program: {}",
        difference.lines,
        last.unwrap_or_default(),
        difference.expected,
        difference.found
    )
}

fn first_difference(expected: &[String], printed: &[u8]) -> Option<Difference> {
    let mut found = printed.split(|&byte| byte == b'\n');
    for (place, line) in expected.iter().enumerate() {
        let other = found.next().unwrap_or(b"");
        if other != line.as_bytes() {
            let found = String::from_utf8_lossy(other).into_owned();
            return Some(Difference { lines: place + 1, expected: line.clone(), found });
        }
    }
    let rest = found.collect::<Vec<_>>().join(&b'\n');
    // After the last line there is its newline and nothing more.
    (!rest.is_empty()).then(|| Difference {
        lines: expected.len(),
        expected: "(nothing more)".to_string(),
        found: String::from_utf8_lossy(&rest).into_owned(),
    })
}

#[cfg(test)]
mod tests {
    use super::*;

    fn script(seed: u64, lines: usize) -> Script {
        make_script(seed, lines, &mut Happenings::default())
    }

    fn printed(script: &Script) -> Vec<u8> {
        (script.expected.join("\n") + "\n").into_bytes()
    }

    #[test]
    fn same_seed_same_script() {
        assert_eq!(script(7, 500).lines, script(7, 500).lines);
        assert_ne!(script(7, 500).lines, script(8, 500).lines);
    }

    #[test]
    fn equal_output_has_no_difference() {
        let script = script(1, 300);
        assert!(first_difference(&script.expected, &printed(&script)).is_none());
    }

    #[test]
    fn a_changed_a_missing_and_a_further_line_are_found() {
        let script = script(1, 300);
        let good = printed(&script);
        let at = |bytes: &[u8]| first_difference(&script.expected, bytes).map(|difference| difference.lines);
        let mut changed = good.clone();
        changed[2] = b'7';
        assert_eq!(at(&changed), Some(1));
        let last = script.expected[299].len() + 1;
        assert_eq!(at(&good[..good.len() - last]), Some(300));
        assert_eq!(at(&[&good[..], b"n=301\n"].concat()), Some(300));
    }
}
