//! The program `tally` as it is called. The bench that it runs is the shell: to a shell the line of a
//! call is nothing but assignments, and a last line, which is no call, prints all answers.

use std::io::Write;
use std::path::Path;
use std::process::{Command, Output, Stdio};

const SHELL: &str = "sh";
const CALLS: &str = "call=open ring=4\ncall=sector min=0 sec=2 frame=0 fill=1\n";
const OPENED: &str = "1 answer=0 out=0 tcc=0 bufc=0";
const ONE_IN: &str = "2 answer=0 out=0 tcc=1 bufc=1";
const NO_CALL: &str = "3 answer=2 out=0 tcc=1 bufc=1";

fn tally(arguments: &[&str], input: &str) -> Output {
    let mut command = Command::new(env!("CARGO_BIN_EXE_tally"));
    command.args(arguments).stdin(Stdio::piped()).stdout(Stdio::piped()).stderr(Stdio::piped());
    let mut child = command.spawn().expect("it starts");
    // It does not read where it is called wrongly.
    let _ = child.stdin.take().expect("a pipe").write_all(input.as_bytes());
    child.wait_with_output().expect("it ends")
}

/// Two calls, and a third line that makes the shell print these answers and do this at last.
fn script(answers: &[&str], at_last: &str) -> String {
    let quoted: Vec<String> = answers.iter().map(|answer| format!("'{answer}'")).collect();
    format!("{CALLS}printf 'n=%s why=0 irq=0\\n' {}; {at_last}\n", quoted.join(" "))
}

fn texts(output: &Output) -> (String, String) {
    let text = |bytes: &[u8]| String::from_utf8_lossy(bytes).into_owned();
    (text(&output.stdout), text(&output.stderr))
}

#[track_caller]
fn fails(answers: &[&str], at_last: &str, reasons: &[&str]) {
    let output = tally(&[SHELL], &script(answers, at_last));
    let (_, told) = texts(&output);
    assert_eq!(output.status.code(), Some(1), "{told}");
    for reason in reasons {
        assert!(told.contains(reason), "`{reason}` is not told: {told}");
    }
}

#[test]
fn the_tally_is_printed_after_each_line() {
    let script = script(&[OPENED, ONE_IN, NO_CALL], ":");
    let expected = "n=1 in=0 taken=0 skipped=0 withdrawn=0 tcc=0\n\
                    n=2 in=1 taken=0 skipped=0 withdrawn=0 tcc=1\n\
                    n=3 in=1 taken=0 skipped=0 withdrawn=0 tcc=1\n";
    let path = Path::new(env!("CARGO_TARGET_TMPDIR")).join("script");
    std::fs::write(&path, &script).expect("a file can be written");
    let path = path.to_str().expect("a path of text");
    for output in [tally(&[SHELL], &script), tally(&[SHELL], script.trim_end()), tally(&[SHELL, path], "")] {
        assert_eq!(texts(&output), (expected.to_string(), String::new()));
        assert_eq!(output.status.code(), Some(0));
    }
}

#[test]
fn an_empty_script_has_no_tally() {
    let output = tally(&[SHELL], "");
    assert_eq!(texts(&output), (String::new(), String::new()));
    assert_eq!(output.status.code(), Some(0));
}

#[test]
fn another_count_is_told() {
    let line = "line 2: call=sector min=0 sec=2 frame=0 fill=1";
    let due = "the tally tcc=1 bufc=1: in=1 taken=0 skipped=0 withdrawn=0 tcc=1, none held";
    let of_tcc = ["2 answer=0 out=0 tcc=0 bufc=1", "the program has tcc=0 bufc=1"];
    let of_bufc = ["2 answer=0 out=0 tcc=1 bufc=2", "the program has tcc=1 bufc=2"];
    for [wrong, told] in [of_tcc, of_bufc] {
        fails(&[OPENED, wrong, NO_CALL], ":", &[line, told, due]);
    }
    let bad = "the tally tcc=0 bufc=1: in=0 taken=0 skipped=0 withdrawn=0 tcc=0, a bad sector held";
    fails(&[OPENED, "2 answer=0 out=1 tcc=1 bufc=1", NO_CALL], ":", &[line, bad]);
    fails(&[OPENED, ONE_IN, "3 answer=2 out=0 tcc=0 bufc=0"], ":", &["line 3: printf", "the program has tcc=0 bufc=0"]);
}

#[test]
fn the_lines_before_a_difference_are_printed() {
    let output = tally(&[SHELL], &script(&[OPENED, "2 answer=0 out=0 tcc=0 bufc=1", NO_CALL], ":"));
    let lines: Vec<String> = texts(&output).0.lines().map(String::from).collect();
    let due = "n=2 in=1 taken=0 skipped=0 withdrawn=0 tcc=1";
    assert_eq!(lines, ["n=1 in=0 taken=0 skipped=0 withdrawn=0 tcc=0", due]);
}

#[test]
fn missing_and_further_lines_are_told() {
    fails(&[OPENED, ONE_IN], ":", &["line 3: printf", "printed no line"]);
    fails(&[OPENED, ONE_IN], "printf 'n=3 answer=2 out=0 tcc=1 bufc=1 why=0 irq=0'", &["line 3", "has no end"]);
    fails(&[OPENED, ONE_IN, NO_CALL, "4 answer=2 out=0 tcc=1 bufc=1"], ":", &["line 3", "goes on: n=4"]);
    fails(&[OPENED, ONE_IN, ONE_IN], ":", &["line 3", "no answer to it: n=2"]);
    fails(&[OPENED, "2 answer=0", NO_CALL], ":", &["line 2", "no answer to it: n=2 answer=0 why=0"]);
}

#[test]
fn a_program_that_fails_is_told() {
    fails(&[OPENED, ONE_IN, NO_CALL], "exit 3", &["the program ended with exit status: 3"]);
    fails(&[OPENED, ONE_IN], "exit 3", &["printed no line", "the program ended with exit status: 3"]);
    let output = tally(&["nowhere/bench"], CALLS);
    assert_eq!(output.status.code(), Some(1));
    assert!(texts(&output).1.contains("nowhere/bench"));
}

#[test]
fn a_history_that_cannot_be_is_told() {
    let start = "call=open ring=4\ncall=write reg=157 value=2\n";
    let script = format!("{start}printf 'n=%s answer=0 out=0 tcc=0 bufc=0 why=0 irq=0\\n' 1 2 3\n");
    let output = tally(&[SHELL], &script);
    assert_eq!(output.status.code(), Some(1));
    let (_, told) = texts(&output);
    assert!(told.contains("line 2") && told.contains("9Dh=2 is answered 0 where 0 good blocks wait"), "{told}");
}

#[test]
fn wrong_arguments_are_refused() {
    let calls: [&[&str]; 9] = [
        &[],
        &["--help"],
        &["--random", "1", "2"],
        &[SHELL, "--random"],
        &[SHELL, "--random", "1"],
        &[SHELL, "--random", "1", "x"],
        &[SHELL, "--random", "1", "2", "-3"],
        &[SHELL, "--random", "1", "2", "3", "4"],
        &[SHELL, "script", "another"],
    ];
    for arguments in calls {
        let output = tally(arguments, "");
        assert_eq!(output.status.code(), Some(2), "{arguments:?}");
        assert!(texts(&output).1.starts_with("usage: tally PROGRAM [SCRIPT]"));
    }
    let output = tally(&[SHELL, "nowhere/script"], "");
    assert_eq!(output.status.code(), Some(2));
    assert!(texts(&output).1.contains("nowhere/script"));
}

#[test]
fn a_random_script_is_given_back_up_to_its_difference() {
    let output = tally(&["cat", "--random", "5", "100", "1"], "");
    let (script, told) = texts(&output);
    assert_eq!(output.status.code(), Some(1));
    assert!(told.contains("seed 5: line 1: ") && told.contains("no answer to it"), "{told}");
    assert_eq!(script.lines().count(), 1);
}

#[test]
fn what_never_happened_is_a_failure_where_scripts_are_counted() {
    let output = tally(&["cat", "--random", "1", "0", "3"], "");
    assert_eq!(output.status.code(), Some(1));
    assert!(texts(&output).1.contains("never happened: sector counted in; bad sector held; "));
    let output = tally(&["cat", "--random", "1", "0"], "");
    assert_eq!(output.status.code(), Some(0));
    assert!(texts(&output).1.ends_with("\n0 lines, every tcc and bufc is the tally's\n"));
}
