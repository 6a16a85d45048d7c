//! Plays a script that bench/works times, from standard input: `receive` calls build a terminal, `save T` asks for
//! T turns, and a turn takes a copy of that terminal and makes the calls behind it. Prints the places, marks, values
//! and waiting messages at the end and the bytes of the last call that wrote any. Has no start-up of std's: the emulator that runs it on Arm fails on what that opens.
#![no_main]

use std::fs::File;
use std::hint::black_box;
use std::io::{Read, Write};
use std::os::fd::FromRawFd;

use sheet::{Answer, Document};
use vectors::call::{Call, LONGEST_BUFFER};

#[no_mangle]
pub extern "C" fn main() -> i32 {
    let mut script = Vec::new();
    // The two are open, and nothing else in this program holds them.
    let (mut input, mut output) = unsafe { (File::from_raw_fd(0), File::from_raw_fd(1)) };
    input.read_to_end(&mut script).expect("standard input");
    output.write_all(play(&script).as_bytes()).expect("standard output");
    0
}

/// What is printed.
fn play(script: &[u8]) -> String {
    let mut rest = script;
    let (built, turns) = build(&mut rest);
    let calls: Vec<Call> = std::iter::from_fn(|| Call::take(&mut rest)).collect();
    let mut buffer = vec![0; LONGEST_BUFFER];
    let mut document = built.clone();
    let mut written = 0;
    for _ in 0..turns {
        document = black_box(&built).clone();
        written = 0;
        for call in black_box(&calls) {
            if let Answer::Done { written: bytes @ 1.., .. } = make(&mut document, call, &mut buffer) {
                written = bytes;
            }
        }
        black_box(&mut document);
    }
    let (size, waiting) = (document.size(), document.waiting().len());
    format!("{} {} {} {waiting} {written}\n", size.places, size.marks, size.values)
}

/// Makes a call of a turn.
fn make(document: &mut Document, call: &Call, space: &mut [u8]) -> Answer {
    match *call {
        Call::Receive { message } => document.receive(message),
        Call::Edit { device, lines, buffer } => document.edit(device, lines, &mut space[..buffer]),
        Call::Keys { way, buffer } => document.keys(way, &mut space[..buffer]),
        Call::Values { way, buffer } => document.values(way, &mut space[..buffer]),
        Call::Element { way, index, buffer } => document.element(way, index, &mut space[..buffer]),
        Call::Save { buffer } => document.save(&mut space[..buffer]),
        _ => panic!("no call of a turn"),
    }
}

/// The terminal that the messages ahead of the first `save` build, and the number of turns.
fn build(rest: &mut &[u8]) -> (Document, usize) {
    let mut document = Document::new();
    loop {
        match Call::take(rest) {
            Some(Call::Receive { message }) => document.receive(message),
            Some(Call::Save { buffer: turns }) => return (document, turns),
            _ => panic!("a receive or the first save"),
        };
    }
}
