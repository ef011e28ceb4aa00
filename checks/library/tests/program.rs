//! The program's arguments and exit codes.

use std::process::{Command, Output};

fn library(arguments: &[&str]) -> Output {
    Command::new(env!("CARGO_BIN_EXE_library")).args(arguments).output().expect("the program starts")
}

fn told(output: &Output) -> String {
    String::from_utf8_lossy(&output.stderr).into_owned()
}

#[test]
fn a_run_without_a_difference() {
    let output = library(&["1", "300"]);
    assert_eq!(output.status.code(), Some(0), "{}", told(&output));
    assert!(told(&output).ends_with("300 calls compared, no difference\n"));
}

/// With a number of runs, too few calls are a failure: not everything has happened.
#[test]
fn too_few_calls() {
    let output = library(&["1", "100", "2"]);
    assert_eq!(output.status.code(), Some(1));
    assert!(told(&output).contains("library: never happened: "));
}

#[test]
fn wrong_arguments() {
    for arguments in [&[][..], &["1"], &["1", "x"], &["-1", "5"], &["1", "2", "3", "4"]] {
        let output = library(arguments);
        assert_eq!(output.status.code(), Some(2), "{arguments:?}");
        assert!(told(&output).starts_with("usage: "));
    }
}
