//! The stream of `merge`: where its messages begin and end, and the program itself.

mod common;
use std::io::Write;
use std::process::{Command, Stdio};

use common::*;
use sheet::{merge, messages};

fn split(stream: &str) -> Vec<String> {
    messages(stream.as_bytes()).map(|message| String::from_utf8_lossy(message).into_owned()).collect()
}

#[test]
fn a_message_ends_before_the_next_op_line_or_at_the_end() {
    assert_eq!(split(""), [""; 0]);
    assert_eq!(split("op=1\n"), ["op=1\n"]);
    assert_eq!(split("op=1\na\nop=1\nb\n"), ["op=1\na\n", "op=1\nb\n"]);
    assert_eq!(split("op=1\na\nop=1\nb"), ["op=1\na\n", "op=1\nb"]);
    assert_eq!(split("op=1\nop=1\nop=1\n"), ["op=1\n", "op=1\n", "op=1\n"]);
}

#[test]
fn bytes_ahead_of_the_first_are_one_too() {
    assert_eq!(split("x"), ["x"]);
    assert_eq!(split("\n"), ["\n"]);
    assert_eq!(split("x\nop=1\na\n"), ["x\n", "op=1\na\n"]);
    assert_eq!(split("\nop=1\n"), ["\n", "op=1\n"]);
    assert_eq!(split("\n\n\nop=1\n"), ["\n\n\n", "op=1\n"]);
}

#[test]
fn an_op_line_is_a_whole_line_with_its_lf() {
    assert_eq!(split("op=1"), ["op=1"]);
    assert_eq!(split("op=1\na\nop=1"), ["op=1\na\nop=1"]);
    assert_eq!(split("op=1\nxop=1\nb\n"), ["op=1\nxop=1\nb\n"]);
    assert_eq!(split("op=1\nop=1 \nb\n"), ["op=1\nop=1 \nb\n"]);
    assert_eq!(split("op=1\nop=12\nop=1\r\n"), ["op=1\nop=12\nop=1\r\n"]);
    assert_eq!(split("op=1op=1\nop=1\n"), ["op=1op=1\n", "op=1\n"]);
}

#[test]
fn refused_messages_are_passed_over() {
    let stream = five().concat();
    assert_eq!(sheet_of(&merge(&stream)), FIVE);
    let with_junk = [b"junk\n", &stream[..], b"op=1\njunk\n", &stream, b"op=1"].concat();
    // The last of the second five has `op=1` behind it, but it was a repeat anyway.
    assert_eq!(sheet_of(&merge(&with_junk)), FIVE);
    let mut backwards = five();
    backwards.reverse();
    assert_eq!(sheet_of(&merge(&backwards.concat())), FIVE);
    assert_eq!(sheet_of(&merge(b"")), "sheet=1\nseen=0,0,0,0,0,0,0,0\nend=0\n");
}

#[test]
fn the_messages_are_the_stream_again() {
    for seed in 0..20 {
        let stream = vectors::fresh::stream(seed, 100);
        let parts: Vec<&[u8]> = messages(&stream).collect();
        assert_eq!(parts.concat(), stream);
        assert!(parts.iter().skip(1).all(|part| part.starts_with(b"op=1\n")));
        assert!(merge(&stream).size().places > 0);
    }
}

#[test]
fn the_program_reads_the_stream_and_prints_the_sheet() {
    let fresh = vectors::fresh::stream(7, 3000);
    for (stream, sheet) in [
        (five().concat(), FIVE.to_string()),
        (Vec::new(), "sheet=1\nseen=0,0,0,0,0,0,0,0\nend=0\n".to_string()),
        (fresh.clone(), sheet_of(&merge(&fresh))),
    ] {
        let mut program = Command::new(env!("CARGO_BIN_EXE_merge"))
            .stdin(Stdio::piped())
            .stdout(Stdio::piped())
            .spawn()
            .expect("merge starts");
        program.stdin.take().unwrap().write_all(&stream).unwrap();
        let output = program.wait_with_output().unwrap();
        assert!(output.status.success());
        assert_eq!(text(&output.stdout), sheet);
    }
}
