//! A bench program, run as a child on a script. No run outlasts its limit: a program that
//! goes on for ever is ended, and that is an error.

use std::io::{self, Read, Write};
use std::path::PathBuf;
use std::process::{Child, ChildStdin, Command, ExitStatus, Output, Stdio};
use std::thread::{self, JoinHandle};
use std::time::{Duration, Instant};

const PROGRAM_VARIABLE: &str = "BENCH";
const MADE_BY_RT: &str = concat!(env!("CARGO_MANIFEST_DIR"), "/../../crates/bench/out/bench");
/// More than any script's answers: a flood is cut here and shows as a difference.
const MOST_BYTES: u64 = 1 << 30;
const BETWEEN_LOOKS: Duration = Duration::from_millis(1);
/// What a pipe takes at once.
const PIECE_BYTES: usize = 65536;

/// The proved bench program. A missing one fails the test that asks: a check
/// that was silently left out would look like one that passed.
pub fn find() -> PathBuf {
    let path = PathBuf::from(std::env::var_os(PROGRAM_VARIABLE).unwrap_or(MADE_BY_RT.into()));
    let path_text = path.display();
    assert!(path.is_file(), "{path_text} is missing: run `rt run </dev/null` in crates/bench, or name a program in {PROGRAM_VARIABLE}");
    path
}

/// Runs the program on a script of so many lines.
pub fn run_program(path: &str, script: Vec<u8>, lines: usize) -> io::Result<Output> {
    let mut child = Command::new(path).stdin(Stdio::piped()).stdout(Stdio::piped()).spawn()?;
    feed(child.stdin.take().expect("a piped input"), script, PIECE_BYTES);
    finish(child, time_limit(lines))
}

/// Many times what a program takes that works.
fn time_limit(lines: usize) -> Duration {
    Duration::from_secs(20 + lines as u64 / 10_000)
}

/// A script's text. A last line counts without its newline too, unless it is empty.
pub fn joined(lines: &[Vec<u8>], end_with_newline: bool) -> Vec<u8> {
    let mut text = lines.join(&b'\n');
    let last_is_empty = lines.last().is_some_and(|line| line.is_empty());
    if !lines.is_empty() && (end_with_newline || last_is_empty) {
        text.push(b'\n');
    }
    text
}

/// Writes the input in pieces of this many bytes. Pipes are bounded, so the
/// caller is free to read what is printed meanwhile. A program that stops reading
/// shows by its missing lines.
pub fn feed(mut stdin: ChildStdin, input: Vec<u8>, piece: usize) {
    thread::spawn(move || input.chunks(piece).all(|bytes| stdin.write_all(bytes).is_ok()));
}

/// What the program prints to pipes until it ends.
pub fn finish(mut child: Child, limit: Duration) -> io::Result<Output> {
    let stdout = child.stdout.take().map(collect);
    let stderr = child.stderr.take().map(collect);
    let status = wait(&mut child, limit)?;
    Ok(Output { status, stdout: collected(stdout)?, stderr: collected(stderr)? })
}

fn wait(child: &mut Child, limit: Duration) -> io::Result<ExitStatus> {
    let start = Instant::now();
    while start.elapsed() < limit {
        if let Some(status) = child.try_wait()? {
            return Ok(status);
        }
        thread::sleep(BETWEEN_LOOKS);
    }
    child.kill()?;
    child.wait()?;
    Err(io::Error::new(io::ErrorKind::TimedOut, format!("the program did not end within {limit:?}")))
}

type Collector = JoinHandle<io::Result<Vec<u8>>>;

fn collect(pipe: impl Read + Send + 'static) -> Collector {
    thread::spawn(move || {
        let mut bytes = Vec::new();
        pipe.take(MOST_BYTES).read_to_end(&mut bytes).map(|_| bytes)
    })
}

fn collected(collector: Option<Collector>) -> io::Result<Vec<u8>> {
    collector.map_or(Ok(Vec::new()), |thread| thread.join().expect("reading does not panic"))
}

#[cfg(test)]
mod tests {
    use super::*;

    #[test]
    fn a_program_that_does_not_end_is_ended() {
        let child = Command::new("sleep").arg("600").spawn().expect("sleep starts");
        let ended = finish(child, Duration::from_millis(20));
        assert_eq!(ended.expect_err("it would go on").kind(), io::ErrorKind::TimedOut);
    }

    #[test]
    fn an_empty_last_line_keeps_its_newline() {
        assert_eq!(joined(&[b"a".to_vec(), b"".to_vec()], false), b"a\n\n");
        assert_eq!(joined(&[b"a".to_vec()], false), b"a");
        assert_eq!(joined(&[], true), b"");
    }
}
