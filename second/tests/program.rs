//! The built program: standard input to standard output.

mod common;

use common::{ONE_JOB, P1_TEXT};
use std::io::Write;
use std::process::{Command, Output, Stdio};

/// Runs the program over this input.
fn program(arguments: &[&str], input: &[u8]) -> Output {
    let mut child = Command::new(env!("CARGO_BIN_EXE_second"))
        .args(arguments)
        .stdin(Stdio::piped())
        .stdout(Stdio::piped())
        .stderr(Stdio::piped())
        .spawn()
        .unwrap();
    let mut stdin = child.stdin.take().unwrap();
    stdin.write_all(input).ok();
    drop(stdin);
    child.wait_with_output().unwrap()
}

#[test]
fn prints_the_answer() {
    for text in [P1_TEXT, ONE_JOB, "", "jobs=65\n"] {
        let output = program(&[], text.as_bytes());
        assert!(output.status.success());
        assert_eq!(output.stdout, second::answer(text.as_bytes()));
    }
}

#[test]
fn prints_the_density() {
    let dense = ONE_JOB.replace("sections=0", "sections=0\nsections=0");
    for text in [P1_TEXT, ONE_JOB, &dense] {
        let output = program(&["density"], text.as_bytes());
        assert!(output.status.success());
        assert_eq!(output.stdout, second::density_answer(text.as_bytes()));
    }
}

#[test]
fn takes_long_input() {
    let output = program(&[], &vec![b'\n'; 3_000_000]);
    assert_eq!(output.stdout, b"refusal=1\nplace=1\n");
}

#[test]
fn other_arguments_print_nothing() {
    for arguments in [&["densit"][..], &["density", "density"]] {
        let output = program(arguments, b"");
        assert_eq!(output.status.code(), Some(2));
        assert!(output.stdout.is_empty());
    }
}
