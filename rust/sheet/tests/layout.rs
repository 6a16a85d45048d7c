//! Document 01, "Messages": what is in the layout and what isn't.

mod common;
use common::*;
use sheet::{read_edit, read_message, read_way, Counters, Deed, Id, Plain, Step, Value};

fn is(message: &str) -> bool {
    read_message(message.as_bytes()).is_ok()
}

fn is_edit(at: &str, deed: &str, value: &str) -> bool {
    read_edit(lines(at, deed, value).as_bytes()).is_ok()
}

const WHOLE: &str = "op=1\nid=12.3\ndeps=11,0,5,0,0,0,0,4294967295\nat=61[7.2{\ndo=assign\nvalue=s6162\n";

#[test]
fn what_a_message_says_is_read() {
    let operation = read_message(WHOLE.as_bytes()).unwrap();
    assert_eq!(operation.id, Id { counter: 12, terminal: 3 });
    assert_eq!(operation.deps, Counters([11, 0, 5, 0, 0, 0, 0, 4294967295]));
    let steps = operation.edit.way.steps();
    assert!(matches!(steps, [Step::Key(_), Step::Element(Id { counter: 7, terminal: 2 }), Step::Key(_)]));
    let key = |step: &Step| match step {
        Step::Key(key) => key.as_slice().to_vec(),
        _ => panic!("a key"),
    };
    assert_eq!((key(&steps[0]), key(&steps[2])), (b"a".to_vec(), Vec::new()));
    match operation.edit.deed {
        Deed::Assign(Value::Plain(Plain::Text(text))) => assert_eq!(text.as_slice(), b"ab"),
        other => panic!("{other:?}"),
    }
}

#[test]
fn a_message_is_one_whole() {
    assert!(is(WHOLE));
    for length in 0..WHOLE.len() {
        assert!(!is(&WHOLE[..length]), "{length}");
        assert!(!is(&WHOLE[WHOLE.len() - length..]), "{length}");
    }
    assert!(!is(&format!("{WHOLE}\n")));
    assert!(!is(&format!("{WHOLE}{WHOLE}")));
    assert!(!is(&format!("\n{WHOLE}")));
    assert!(!is(&WHOLE.replace('\n', "\r\n")));
    assert!(!is(&WHOLE.replace("op=1", "op=2")));
    assert!(!is(&WHOLE.replace("op=1", "op=01")));
    let lines: Vec<&str> = WHOLE.split_inclusive('\n').collect();
    for at in 0..lines.len() {
        assert!(!is(&[&lines[..at], &lines[at + 1..]].concat().concat()), "without line {at}");
        assert!(!is(&[&lines[..=at], &lines[at..]].concat().concat()), "line {at} twice");
    }
}

#[test]
fn ids() {
    for (id, good) in [
        ("1.1", true),
        ("4294967295.8", true),
        ("4294967296.1", false),
        ("42949672950.1", false),
        ("0.1", false),
        ("1.0", false),
        ("1.9", false),
        ("1.10", false),
        ("1.01", false),
        ("01.1", false),
        ("+1.1", false),
        ("-1.1", false),
        ("1", false),
        ("1.", false),
        (".1", false),
        ("1.1.1", false),
        ("1 .1", false),
        ("", false),
        ("18446744073709551617.1", false),
    ] {
        assert_eq!(is(&WHOLE.replace("12.3", id)), good, "{id}");
        assert_eq!(is(&WHOLE.replace("7.2", id)), good, "{id} in the way");
    }
}

#[test]
fn deps() {
    for (deps, good) in [
        ("0,0,0,0,0,0,0,0", true),
        ("4294967295,4294967295,4294967295,4294967295,4294967295,4294967295,4294967295,4294967295", true),
        ("0,0,0,0,0,0,0,4294967296", false),
        ("4294967296,0,0,0,0,0,0,0", false),
        ("0,0,0,0,0,0,0", false),
        ("0,0,0,0,0,0,0,0,0", false),
        ("0,0,0,0,0,0,0,", false),
        ("0,0,0,0,0,0,0,0,", false),
        ("", false),
        ("0,0,0,00,0,0,0,0", false),
        ("0,0,0,01,0,0,0,0", false),
        ("0,0,0,-0,0,0,0,0", false),
        ("0,0,0,+1,0,0,0,0", false),
        ("0, 0,0,0,0,0,0,0", false),
        ("0;0,0,0,0,0,0,0", false),
    ] {
        assert_eq!(is(&WHOLE.replace("11,0,5,0,0,0,0,4294967295", deps)), good, "{deps}");
    }
}

#[test]
fn ways() {
    for (way, good) in [
        ("", true),
        ("{", true),
        ("61", true),
        ("61{62", true),
        ("61[1.1", true),
        ("61[^", true),
        ("[^", true),
        ("{{{{{{{", true),
        ("{{{{{{{{", false),
        ("61[1.1[1.1[1.1[1.1[1.1[1.1[^", true),
        ("61[1.1[1.1[1.1[1.1[1.1[1.1[1.1[^", false),
        ("^", false),
        ("61{^", false),
        ("61[^[^", false),
        ("61[^{61", false),
        ("61[", false),
        ("61[61", false),
        ("61{1.1", false),
        ("1.1", false),
        ("6", false),
        ("616", false),
        ("6A", false),
        ("6g", false),
        ("61}", false),
        ("61^", false),
        ("61[^^", false),
        ("00112233445566778899aabbccddeeff", true),
        ("00112233445566778899aabbccddeeff00", false),
    ] {
        assert_eq!(read_way(way.as_bytes()).is_some(), good, "{way}");
        if let Some(read) = read_way(way.as_bytes()) {
            let mut written = Vec::new();
            read.write(&mut written);
            assert_eq!(text(&written), way);
        }
    }
}

#[test]
fn deeds_and_how_the_way_ends() {
    for (at, assign, insert, delete) in [
        ("61", true, false, true),
        ("61[1.1", true, true, true),
        ("61[^", false, true, false),
        ("", true, false, true),
    ] {
        assert_eq!(is_edit(at, "assign", "n"), assign, "{at}");
        assert_eq!(is_edit(at, "insert", "n"), insert, "{at}");
        assert_eq!(is_edit(at, "delete", ""), delete, "{at}");
    }
    for deed in ["", "Assign", "assign ", "del", "remove"] {
        assert!(!is_edit("61[1.1", deed, "n"), "{deed}");
    }
    assert!(read_edit(b"at=61\ndo=delete\nvalue=n\n").is_err(), "a delete has no value");
    assert!(read_edit(b"at=61\ndo=assign\n").is_err(), "an assign has one");
}

#[test]
fn values() {
    for (value, good) in [
        ("n", true),
        ("t", true),
        ("f", true),
        ("{", true),
        ("[", true),
        ("i0", true),
        ("i-1", true),
        ("i10", true),
        ("s", true),
        ("s00ff", true),
        ("", false),
        ("n ", false),
        ("nn", false),
        ("{}", false),
        ("^", false),
        ("i", false),
        ("i-", false),
        ("i-0", false),
        ("i00", false),
        ("i01", false),
        ("i-01", false),
        ("i+1", false),
        ("i1.0", false),
        ("i1a", false),
        ("I1", false),
        ("1", false),
        ("s0", false),
        ("s0G", false),
        ("sFF", false),
        ("s 00", false),
    ] {
        assert_eq!(is_edit("61", "assign", value), good, "{value}");
        assert_eq!(is_edit("61[^", "insert", value), good, "{value}");
    }
}
