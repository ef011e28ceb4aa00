//! The proved bench program at the edges of its input and output: where lines
//! and reads end, lines of any length and of any bytes, files that cannot be
//! read or written, and its arguments. What it answers is compared with the model.

use drive::{feed, find, finish};
use model::{Bench, Random};
use std::fs::File;
use std::io::{BufRead, BufReader, Write};
use std::os::fd::OwnedFd;
use std::os::unix::net::{UnixDatagram, UnixStream};
use std::path::Path;
use std::process::{ChildStdin, Command, Output, Stdio};
use std::sync::mpsc::channel;
use std::thread;
use std::time::Duration;

const LIMIT: Duration = Duration::from_secs(20);
/// The program's input buffer, and what it keeps there at most of a line whose
/// end it has not read.
const BUFFER_BYTES: usize = 65536;
const KEPT_BYTES: usize = 81;
const OPEN: &[u8] = b"call=open ring=4";
const STATUS: &[u8] = b"call=status";

/// The model's answers. A last line counts without its newline too, unless it
/// is empty.
fn answers(input: &[u8]) -> String {
    let mut bench = Bench::new();
    let mut lines: Vec<&[u8]> = input.split(|&byte| byte == b'\n').collect();
    if lines.last().is_some_and(|line| line.is_empty()) {
        lines.pop();
    }
    lines.iter().map(|line| bench.line(line) + "\n").collect()
}

fn command(stdin: impl Into<Stdio>, stdout: impl Into<Stdio>) -> Command {
    let mut command = Command::new(find());
    command.stdin(stdin).stdout(stdout).stderr(Stdio::piped());
    command
}

fn piped(input: &[u8], piece: usize) -> Output {
    let mut child = command(Stdio::piped(), Stdio::piped()).spawn().expect("the program starts");
    feed(child.stdin.take().expect("a pipe"), input.to_vec(), piece);
    finish(child, LIMIT).expect("the program ends")
}

/// Each read gives as many bytes as are asked for.
fn from_file(name: &str, input: &[u8]) -> Output {
    let path = Path::new(env!("CARGO_TARGET_TMPDIR")).join(name);
    std::fs::write(&path, input).expect("a file can be written");
    let file = File::open(&path).expect("the file was written");
    let child = command(file, Stdio::piped()).spawn().expect("the program starts");
    finish(child, LIMIT).expect("the program ends")
}

/// Each read gives one piece: a datagram is read whole, and an empty one ends
/// the input.
fn in_reads(input: &[u8], piece: usize) -> Output {
    assert!(piece <= BUFFER_BYTES - KEPT_BYTES, "a longer piece would be cut");
    let (near, far) = UnixDatagram::pair().expect("a pair of sockets");
    let child = command(OwnedFd::from(far), Stdio::piped()).spawn().expect("the program starts");
    let pieces: Vec<Vec<u8>> = input.chunks(piece).map(<[u8]>::to_vec).collect();
    // A program that stops reading shows by its missing lines.
    thread::spawn(move || pieces.iter().chain([&vec![]]).all(|piece| near.send(piece).is_ok()));
    finish(child, LIMIT).expect("the program ends")
}

#[track_caller]
fn hold(output: &Output, input: &[u8]) {
    let (expected, found) = (answers(input), String::from_utf8_lossy(&output.stdout));
    let difference = expected.lines().zip(found.lines()).find(|(model, program)| model != program);
    assert_eq!(difference, None, "model and program");
    assert_eq!(found.len(), expected.len(), "bytes printed");
    assert_eq!(String::from_utf8_lossy(&output.stderr), "");
    assert!(output.status.success(), "{}", output.status);
}

fn joined(lines: &[&[u8]]) -> Vec<u8> {
    lines.join(&b'\n')
}

/// A well-formed line of this length.
fn padded(length: usize) -> Vec<u8> {
    [b"call=read reg=", &vec![b'0'; length - 16][..], b"24"].concat()
}

fn random_lines(seed: u64, count: usize) -> Vec<u8> {
    let mut random = Random::new(seed);
    let mut line = || {
        let length = random.between(0, 120) as usize;
        let mut bytes = random.bytes(length);
        bytes.push(b'\n');
        bytes
    };
    (0..count).flat_map(|_| line()).collect()
}

/// Lines of all kinds: answered, refused, malformed, empty, of 80 and 81 bytes,
/// too long, of any bytes. The last has no newline.
fn mixed() -> Vec<u8> {
    let (at, over, long) = (padded(80), padded(81), padded(700));
    let random = random_lines(3, 20);
    let spoiled: [&[u8]; 4] = [b"call=status\r", b"call=sta\0tus", b"\0", b"call=status\xFF"];
    let mut lines = vec![STATUS, OPEN, STATUS, b"", &at, &over, STATUS, &long, &random];
    lines.extend(spoiled);
    lines.extend([&b"call=scratch from=16 count=9"[..], b"call=scratch from=65535 count=0", b"call=scratch from=16"]);
    lines.extend([&b"call=kind number=2"[..], b"call=kind number=258", b"call=kind", b"call=kind number=2 "]);
    lines.extend([
        &b"call=subheader file=255 channel=255 submode=223 coding=255"[..],
        b"call=subheader file=1 channel=2",
    ]);
    lines.extend([&b"call=sector min=0 sec=2 frame=0 fill=7"[..], b"call=look", b"call=read reg=36"]);
    joined(&lines)
}

#[test]
fn input_that_has_hardly_a_line() {
    for input in [&b""[..], b"\n", b"\n\n\n", STATUS, b"call=status\n", b"\r\n", b"\0", b"call=status\n\n"] {
        hold(&piped(input, BUFFER_BYTES), input);
        hold(&from_file("short", input), input);
    }
    assert_eq!(piped(b"", 1).stdout, b"");
    assert_eq!(piped(b"\n", 1).stdout, b"n=1 answer=2 out=0 tcc=0 bufc=0 why=0 irq=0\n");
}

#[test]
fn input_that_comes_in_pieces() {
    let input = mixed();
    for piece in [1, 2, 7, 79, 80, 81, 82, 1000] {
        hold(&in_reads(&input, piece), &input);
        hold(&piped(&input, piece), &input);
    }
    let many = mixed().repeat(100);
    for piece in [4095, 4096, BUFFER_BYTES - KEPT_BYTES] {
        hold(&in_reads(&many, piece), &many);
        hold(&piped(&many, piece), &many);
    }
    hold(&piped(&many, BUFFER_BYTES), &many);
}

#[test]
fn lines_of_every_length_about_the_longest() {
    for length in 75..=90 {
        let line = padded(length);
        let input = joined(&[OPEN, &line, STATUS, &line]);
        hold(&piped(&input, BUFFER_BYTES), &input);
        hold(&in_reads(&input, length), &input);
    }
}

#[test]
fn long_lines_are_answered_once() {
    let lengths = [162, 65454, 65455, 65456, 65534, 65535, 65536, 65537, 131071, 131072, 131073, 200_000, 5_000_000];
    for length in lengths {
        let line = padded(length);
        for input in [joined(&[OPEN, &line, STATUS, b""]), joined(&[&line, OPEN, &line])] {
            assert_eq!(answers(&input).lines().count(), 3);
            hold(&piped(&input, BUFFER_BYTES), &input);
            hold(&piped(&input, 4095), &input);
            hold(&from_file("long", &input), &input);
        }
    }
}

/// The first read of a file ends exactly where the buffer does, and the next
/// fills what the kept bytes leave. Before the newline are short lines and a
/// rest of one, or one long line.
#[test]
fn line_ends_about_the_buffers_end() {
    for edge in [BUFFER_BYTES, 2 * BUFFER_BYTES, 2 * BUFFER_BYTES - KEPT_BYTES] {
        for distance in [0, 1, 2, 11, 12, 13, 79, 80, 81, 82, 83] {
            for newline in [edge - distance, edge + distance] {
                let short = b"call=status\n".repeat(newline / 12);
                let rest = vec![b'x'; newline % 12];
                let many = [&short, &rest[..], b"\n", OPEN, b"\n", STATUS].concat();
                hold(&from_file("edge", &many), &many);
                let one = [&vec![b'x'; newline][..], b"\n", OPEN, b"\n", STATUS, b"\n"].concat();
                hold(&from_file("edge", &one), &one);
            }
        }
    }
}

#[test]
fn lines_of_any_bytes() {
    let each: Vec<u8> = (0..=255).flat_map(|byte| [&[byte][..], b"\ncall=status", &[byte], b"\n"].concat()).collect();
    hold(&piped(&each, BUFFER_BYTES), &each);
    for seed in 1..=4 {
        let input = random_lines(seed, 5000);
        hold(&piped(&input, BUFFER_BYTES), &input);
    }
}

/// Writes a line and waits for its answer before it goes on.
#[test]
fn answers_come_while_the_input_is_open() {
    let mut child = command(Stdio::piped(), Stdio::piped()).spawn().expect("the program starts");
    let (mut stdin, stdout) = (child.stdin.take().expect("a pipe"), child.stdout.take().expect("a pipe"));
    let (sender, printed) = channel();
    thread::spawn(move || BufReader::new(stdout).lines().all(|line| sender.send(line).is_ok()));
    let mut bench = Bench::new();
    for line in [STATUS, OPEN, b"", &padded(80), &padded(5000), STATUS].iter().cycle().take(300) {
        stdin.write_all(&[line, &b"\n"[..]].concat()).expect("the program reads on");
        let found = printed.recv_timeout(LIMIT).expect("an answer in time").expect("a line");
        assert_eq!(found, bench.line(line));
    }
    drop(stdin);
    assert!(finish(child, LIMIT).expect("the program ends").status.success());
    assert!(printed.recv_timeout(LIMIT).is_err(), "nothing more is printed");
}

/// Lines without end, until the program no longer reads; their answers are
/// many times as long.
fn flood(mut stdin: ChildStdin) {
    thread::spawn(move || while stdin.write_all(&[b'\n'; BUFFER_BYTES]).is_ok() {});
}

#[test]
fn a_full_output_is_told_and_ends_the_program() {
    let full = File::options().write(true).open("/dev/full").expect("/dev/full is there");
    let mut child = command(Stdio::piped(), full).spawn().expect("the program starts");
    flood(child.stdin.take().expect("a pipe"));
    let output = finish(child, LIMIT).expect("the program ends");
    assert_eq!(String::from_utf8_lossy(&output.stderr), "write: No space left on device\n");
}

#[test]
fn an_output_that_nobody_reads_ends_the_program() {
    let mut child = command(Stdio::piped(), Stdio::piped()).spawn().expect("the program starts");
    flood(child.stdin.take().expect("a pipe"));
    drop(child.stdout.take());
    finish(child, LIMIT).expect("the program ends");
}

/// A read that fails in the middle of a line: the socket has no byte more, and
/// is not to be waited for. What came of the line is not run.
#[test]
fn a_line_cut_by_a_failed_read_is_not_run() {
    let (mut near, far) = UnixStream::pair().expect("a pair of sockets");
    far.set_nonblocking(true).expect("a socket that does not wait");
    near.write_all(b"call=open ring=25\ncall=block number=1").expect("room for two lines");
    let child = command(OwnedFd::from(far), Stdio::piped()).spawn().expect("the program starts");
    let output = finish(child, LIMIT).expect("the program ends");
    assert_eq!(String::from_utf8_lossy(&output.stdout), answers(b"call=open ring=25\n"));
    assert_eq!(String::from_utf8_lossy(&output.stderr), "read: Resource temporarily unavailable\n");
    drop(near);
}

#[test]
fn a_directory_is_no_input() {
    let folder = File::open("/").expect("the root is there");
    let child = command(folder, Stdio::piped()).spawn().expect("the program starts");
    let output = finish(child, LIMIT).expect("the program ends");
    assert_eq!(output.stdout, b"");
    assert_eq!(String::from_utf8_lossy(&output.stderr), "read: Is a directory\n");
}

/// The program with these arguments. Its standard input stays open and is not to
/// be waited for.
fn with_arguments(words: &[&str]) -> Output {
    let mut child = command(Stdio::piped(), Stdio::piped()).args(words).spawn().expect("the program starts");
    let stdin = child.stdin.take();
    let output = finish(child, LIMIT).expect("the program ends");
    drop(stdin);
    output
}

#[test]
fn a_file_is_run() {
    let path = Path::new(env!("CARGO_TARGET_TMPDIR")).join("calls");
    let many = mixed().repeat(100);
    for input in [&b""[..], b"call=status", &mixed(), &many] {
        std::fs::write(&path, input).expect("a file can be written");
        hold(&with_arguments(&[path.to_str().expect("a name of text")]), input);
    }
}

#[test]
fn arguments_are_answered_or_refused() {
    let output = with_arguments(&["--help"]);
    let usage = String::from_utf8_lossy(&output.stdout);
    assert!(usage.starts_with("usage: bench [FILE]\n"), "{usage}");
    assert_eq!(output.stderr, b"");
    for words in [&["-x"][..], &["--helps"], &["-"], &["a", "b"], &["--help", "a"]] {
        let refused = with_arguments(words);
        assert_eq!(refused.stdout, b"", "{words:?}");
        assert_eq!(String::from_utf8_lossy(&refused.stderr), usage, "{words:?}");
    }
    let long = "x".repeat(5000);
    let told = [
        ("no/such", "no/such: No such file or directory\n"),
        ("", ": No such file or directory\n"),
        ("/", "read: Is a directory\n"),
        (&long, "argument: File name too long\n"),
    ];
    for (word, expected) in told {
        let output = with_arguments(&[word]);
        assert_eq!(output.stdout, b"", "{word}");
        assert_eq!(String::from_utf8_lossy(&output.stderr), expected);
    }
}

/// The program as a shell starts it with a stream closed, and what it tells.
fn with_closed(stream: &str, input: &[u8]) -> Output {
    let mut shell = Command::new("sh");
    shell.args(["-c", &format!("exec \"$0\" {stream}")]).arg(find());
    let mut child =
        shell.stdin(Stdio::piped()).stdout(Stdio::piped()).stderr(Stdio::piped()).spawn().expect("a shell starts");
    feed(child.stdin.take().expect("a pipe"), input.to_vec(), BUFFER_BYTES);
    finish(child, LIMIT).expect("the program ends")
}

#[test]
fn closed_streams_are_told_and_end_the_program() {
    let output = with_closed("<&-", b"");
    assert_eq!(output.stdout, b"");
    assert_eq!(output.stderr, b"read: Bad file descriptor\n");
    let output = with_closed(">&-", &mixed());
    assert_eq!(output.stdout, b"");
    assert_eq!(output.stderr, b"write: Bad file descriptor\n");
}
