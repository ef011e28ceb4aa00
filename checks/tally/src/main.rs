//! Keeps the paper tally of a bench program's run and holds every `tcc` and `bufc` against it.
//!
//! `tally PROGRAM [SCRIPT]` prints the tally after each line of the script, which is a file or
//! standard input. `tally PROGRAM --random SEED LINES [SCRIPTS]` does so for random scripts and
//! prints none of it: what happened is told on standard error, and after a difference the script up
//! to it is on standard output, ready to be fed again. With SCRIPTS that many are run, of seeds from
//! SEED on, and it is a failure too if something that is counted happened in none of them.

mod happenings;

use drive::{joined, run_program};
use happenings::Happenings;
use std::io::{self, Read, Write};
use std::process::{ExitCode, ExitStatus};
use tally::{keep, lines_of, make_script, Step, Trouble};

const USAGE: &str = "usage: tally PROGRAM [SCRIPT]
       tally PROGRAM --random SEED LINES [SCRIPTS]";

enum Task<'a> {
    Script { program: &'a str, script: Option<&'a str> },
    Random { program: &'a str, seed: u64, lines: usize, scripts: Option<u64> },
}

fn main() -> ExitCode {
    let arguments: Vec<String> = std::env::args().skip(1).collect();
    let Some(task) = read_arguments(&arguments) else {
        eprintln!("{USAGE}");
        return ExitCode::from(2);
    };
    let done = match task {
        Task::Random { program, seed, lines, scripts } => run_random(program, seed, lines, scripts),
        Task::Script { program, script } => match read_script(script) {
            Ok(text) => run_script(program, &text),
            Err(error) => {
                eprintln!("tally: {}: {error}", script.unwrap_or("standard input"));
                return ExitCode::from(2);
            }
        },
    };
    match done {
        Ok(()) => ExitCode::SUCCESS,
        Err(trouble) => {
            eprintln!("tally: {trouble}");
            ExitCode::FAILURE
        }
    }
}

fn read_arguments(arguments: &[String]) -> Option<Task<'_>> {
    let (program, rest) = arguments.split_first()?;
    if program.starts_with('-') {
        return None;
    }
    match rest {
        [] => Some(Task::Script { program, script: None }),
        [flag, seed, lines] if flag == "--random" => read_random(program, seed, lines, None),
        [flag, seed, lines, scripts] if flag == "--random" => read_random(program, seed, lines, Some(scripts)),
        [script] if !script.starts_with('-') => Some(Task::Script { program, script: Some(script) }),
        _ => None,
    }
}

fn read_random<'a>(program: &'a str, seed: &str, lines: &str, scripts: Option<&String>) -> Option<Task<'a>> {
    let scripts = scripts.map(|scripts| scripts.parse()).transpose().ok()?;
    Some(Task::Random { program, seed: seed.parse().ok()?, lines: lines.parse().ok()?, scripts })
}

fn read_script(path: Option<&str>) -> io::Result<Vec<u8>> {
    let Some(path) = path else {
        let mut text = Vec::new();
        return io::stdin().read_to_end(&mut text).map(|_| text);
    };
    std::fs::read(path)
}

fn run_script(program: &str, script: &[u8]) -> Result<(), String> {
    let lines = lines_of(script);
    let output = run_program(program, script.to_vec(), lines.len()).map_err(|error| format!("{program}: {error}"))?;
    let mut told = String::new();
    let kept = keep(&lines, &output.stdout, |step| told += &format!("n={} {}\n", step.number, step.after));
    io::stdout().write_all(told.as_bytes()).map_err(|error| format!("standard output: {error}"))?;
    judge(kept, output.status)
}

fn run_random(program: &str, first: u64, lines: usize, scripts: Option<u64>) -> Result<(), String> {
    let mut happenings = Happenings::default();
    for number in 0..scripts.unwrap_or(1) {
        let seed = first.wrapping_add(number);
        let kept = keep_random(program, seed, lines, &mut happenings);
        kept.map_err(|trouble| format!("seed {seed}: {trouble}"))?;
    }
    eprint!("{}", happenings.report());
    let missing = happenings.missing();
    if scripts.is_some() && !missing.is_empty() {
        return Err(format!("never happened: {}", missing.join("; ")));
    }
    eprintln!("{} lines, every tcc and bufc is the tally's", scripts.unwrap_or(1) * lines as u64);
    Ok(())
}

fn keep_random(program: &str, seed: u64, count: usize, happenings: &mut Happenings) -> Result<(), String> {
    let script = make_script(seed, count);
    let input = joined(&script.lines, seed.is_multiple_of(2));
    let output = run_program(program, input, count).map_err(|error| format!("{program}: {error}"))?;
    let lines: Vec<&[u8]> = script.lines.iter().map(Vec::as_slice).collect();
    happenings.begin();
    let see = |step: &Step| happenings.note(step, script.ends_of_several[step.number - 1]);
    let kept = keep(&lines, &output.stdout, see);
    if let Err(trouble) = &kept {
        let _ = io::stdout().write_all(&joined(&script.lines[..trouble.lines], true));
    }
    judge(kept, output.status)
}

/// A program that prints every line rightly and then fails has failed.
fn judge(kept: Result<(), Trouble>, status: ExitStatus) -> Result<(), String> {
    kept.map_err(|trouble| match status.success() {
        true => trouble.to_string(),
        false => format!("{trouble}\nthe program ended with {status}"),
    })?;
    match status.success() {
        true => Ok(()),
        false => Err(format!("every line is the tally's, but the program ended with {status}")),
    }
}
