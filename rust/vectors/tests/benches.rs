//! The scripts that bench/works times play what they say, and so does the program that plays them.

mod common;
use sheet::{Document, Size};
use vectors::benches::{script, WORKS};
use vectors::call::Call;
use vectors::replay::perform;

/// What `workbench` prints.
fn printed(script: &[u8]) -> String {
    let output = common::run(env!("CARGO_BIN_EXE_workbench"), &[], script);
    assert!(output.status.success());
    String::from_utf8(output.stdout).unwrap()
}

#[test]
fn they_end_as_is_meant() {
    // places, marks, values, waiting messages, bytes that were written last; each reckoned by hand
    let ends = [
        ("small", "4 6 2 0 0\n"),
        ("stream", "120 300 100 0 0\n"),
        ("typical", "100 336 80 0 0\n"),
        ("held", "100 336 80 64 0\n"),
        ("late", "85 195 65 0 0\n"),
        ("backwards", "85 195 65 0 0\n"),
        ("clearing", "251 1 0 0 0\n"),
        ("insert", "256 1024 247 0 0\n"),
        ("assign", "256 1024 247 0 0\n"),
        ("made", "256 1024 9 0 0\n"),
        ("editsmall", "5 10 3 0 61\n"),
        ("edittypical", "100 336 80 0 78\n"),
        ("editfull", "256 1024 232 0 267\n"),
        ("keyssmall", "4 6 2 0 3\n"),
        ("keystypical", "100 240 80 0 15\n"),
        ("keysfull", "256 256 256 0 8448\n"),
        ("valuestypical", "100 240 80 0 8\n"),
        ("valuesfull", "256 1024 256 0 316\n"),
        ("elementsmall", "4 6 2 0 4\n"),
        ("elementlong", "251 433 183 0 5\n"),
        ("savesmall", "4 6 2 0 168\n"),
        ("savetypical", "100 240 80 0 4722\n"),
        ("savefull", "256 1024 256 0 51053\n"),
    ];
    assert_eq!(ends.map(|(name, _)| name)[..], WORKS.iter().map(|(name, ..)| *name).collect::<Vec<_>>());
    for (name, end) in ends {
        for turns in [1, 3] {
            assert_eq!(printed(&script(name, turns).unwrap()), end, "{name}");
        }
    }
    assert!(script("another", 3).is_none());
}

/// What is built, and the numbers of the answers to the calls of a turn.
fn played(name: &str) -> (Size, usize, Vec<u8>) {
    let script = script(name, 70_000).unwrap();
    let mut document = Document::new();
    let mut built = None;
    let mut answers = Vec::new();
    let mut rest = &script[..];
    while let Some(call) = Call::take(&mut rest) {
        if call == (Call::Save { buffer: 70_000 }) {
            built = Some((document.size(), document.waiting().len()));
            answers.clear();
        } else {
            answers.push(perform(&mut document, &call, &mut Vec::new()).answer.number());
        }
    }
    let (size, waiting) = built.expect("the number of turns");
    (size, waiting, answers)
}

#[test]
fn they_begin_as_is_meant_and_each_timed_call_is_answered_0() {
    let size = |places, marks, values| Size { places, marks, values };
    for (name, built, waiting, count) in [
        ("small", size(0, 0, 0), 0, 5),
        ("stream", size(0, 0, 0), 0, 100),
        ("typical", size(100, 240, 80), 0, 32),
        ("held", size(100, 240, 80), 64, 32),
        ("late", size(0, 0, 0), 64, 1),
        ("backwards", size(0, 0, 0), 64, 1),
        ("clearing", size(251, 1000, 250), 0, 1),
        ("insert", size(226, 784, 217), 0, 30),
        ("assign", size(226, 784, 217), 0, 30),
        ("made", size(192, 960, 1), 0, 8),
        ("editsmall", size(4, 6, 2), 0, 2),
        ("edittypical", size(100, 240, 80), 0, 32),
        ("editfull", size(256, 1024, 256), 0, 16),
        ("keystypical", size(100, 240, 80), 0, 33),
        ("keysfull", size(256, 256, 256), 0, 1),
        ("valuestypical", size(100, 240, 80), 0, 32),
        ("valuesfull", size(256, 1024, 256), 0, 64),
        ("savetypical", size(100, 240, 80), 0, 1),
    ] {
        assert_eq!(played(name), (built, waiting, vec![0; count]), "{name}");
    }
}

#[test]
fn without_what_is_timed_a_turn_is_the_copy() {
    let script = script("held", 5).unwrap();
    let line = b"save 5\n";
    let end = script.windows(line.len()).position(|bytes| bytes == line).unwrap() + line.len();
    assert_eq!(printed(&script[..end]), "100 240 80 64 0\n");
}
