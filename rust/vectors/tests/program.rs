//! The program `vectors` by its arguments.

mod common;
use std::process::Output;
use std::{env, fs, process};

use common::{folder, kept};

fn run(arguments: &[&str], input: &[u8]) -> Output {
    common::run(env!("CARGO_BIN_EXE_vectors"), arguments, input)
}

#[test]
fn script_and_answers() {
    let script = run(&["script", "waiting", "1"], b"");
    assert!(script.status.success());
    assert!(script.stdout == kept("waiting.script"));
    let answers = run(&["answers"], &script.stdout);
    assert!(answers.status.success());
    assert!(answers.stdout == kept("waiting.answers"));
}

#[test]
fn fresh() {
    let stream = run(&["fresh", "1", "120"], b"");
    assert!(stream.status.success());
    assert!(stream.stdout == kept("merge-fresh-1.stream"));
}

#[test]
fn stream() {
    let counts = run(&["stream"], &kept("merge-example-other.stream"));
    assert!(counts.status.success());
    let text = String::from_utf8(counts.stdout).unwrap();
    let lines: Vec<Vec<&str>> = text.lines().map(|line| line.split_whitespace().collect()).collect();
    assert_eq!(lines[1][..3], ["stream", "5", "0"], "{text}");
    assert_eq!(lines[2], ["applied", "5,", "dropped", "0"], "{text}");
}

#[test]
fn keep_and_counts() {
    let new = env::temp_dir().join(format!("vectors-{}", process::id()));
    fs::create_dir(&new).unwrap();
    assert!(run(&["keep", new.to_str().unwrap()], b"").status.success());
    assert!(fs::read(new.join("full.answers")).unwrap() == kept("full.answers"));
    let counts = run(&["counts", new.to_str().unwrap()], b"");
    fs::remove_dir_all(&new).unwrap();
    assert!(counts.status.success());
    assert!(counts.stdout == run(&["counts", folder().to_str().unwrap()], b"").stdout);
    let text = String::from_utf8(counts.stdout).unwrap();
    let all = text.lines().find_map(|line| line.strip_prefix("all calls")).unwrap();
    let zeros: Vec<usize> = all
        .split_whitespace()
        .enumerate()
        .filter(|(_, count)| *count == "0")
        .map(|(number, _)| number)
        .collect();
    assert_eq!(zeros, [9], "{text}");
}

#[test]
fn what_makes_no_sense_is_refused() {
    for arguments in [
        &[][..],
        &["script"],
        &["script", "nothing", "1"],
        &["script", "wild", "x"],
        &["fresh", "1"],
        &["fresh", "1", "x"],
        &["bench", "small", "x"],
        &["bench", "nothing", "1"],
    ] {
        let output = run(arguments, b"");
        assert_eq!(output.status.code(), Some(2), "{arguments:?}");
        assert!(output.stdout.is_empty());
    }
    assert_eq!(run(&["counts", "/nowhere"], b"").status.code(), Some(1));
}
