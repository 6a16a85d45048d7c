//! Every single-byte change of the example sheet and of a message with each kind of value:
//! refused, or accepted and then saved (printed) back to the very same bytes.

mod common;
use common::*;
use sheet::{read_edit, read_message, Answer, Document};

/// Bytes that are put in at each position: those that mean something somewhere.
const PUT_IN: &[u8] = b"0123456789abcdefilmnopstv.,:=-+{[^ \n\r\0A\xff";

/// Gives `look` each change of `bytes` and where it is.
fn each_change(bytes: &[u8], mut look: impl FnMut(usize, &[u8])) {
    let mut changed = bytes.to_vec();
    for at in 0..bytes.len() {
        for by in 1..=255 {
            changed[at] = bytes[at] ^ by;
            look(at, &changed);
        }
        changed[at] = bytes[at];
    }
    for at in 0..bytes.len() {
        let without = [&bytes[..at], &bytes[at + 1..]].concat();
        look(at, &without);
    }
    for at in 0..=bytes.len() {
        for &byte in PUT_IN {
            let with = [&bytes[..at], &[byte], &bytes[at..]].concat();
            look(at, &with);
        }
    }
}

/// The number of accepted changes of a sheet.
fn sheet_changes(sheet: &str) -> usize {
    let before = after(&[assign("1.8", "", "7a", "t")]);
    let mut accepted = 0;
    each_change(sheet.as_bytes(), |at, changed| {
        let mut document = before.clone();
        match document.load(changed) {
            Answer::BreaksAt { line } => {
                let first = 1 + sheet.as_bytes()[..at].iter().filter(|&&byte| byte == b'\n').count();
                let lines = changed.iter().filter(|&&byte| byte == b'\n').count();
                assert!(line >= first && line <= lines + 1, "line {line} of\n{}", text(changed));
                assert_eq!(document, before);
            }
            answer => {
                assert_eq!(answer, done(0, 0));
                assert_eq!(text(&document.sheet()), text(changed));
                accepted += 1;
            }
        }
    });
    accepted
}

#[test]
fn the_example_sheet() {
    assert!(sheet_changes(FIVE) > 50);
}

#[test]
fn a_sheet_with_every_kind_of_line() {
    let sheet = "\
sheet=1
seen=12,3,0,0,0,0,0,4294967295
place=1{-
mark=12.1
value=12.1:n
place=1{b6162
mark=1.1
mark=2.1
mark=10.1
mark=77.8
value=1.1:i-120
value=2.1:s
value=10.1:sff00
value=77.8:t
place=2{m00
mark=10.1
place=3{-
place=2{-0000
place=2[l10.1
mark=1.1
value=1.1:f
place=3[-3.2
place=3[-9.1
place=2[-2.1
end=9
";
    assert!(sheet_changes(sheet) > 100);
}

#[test]
fn a_message_with_each_kind_of_value() {
    for (at, deed, value) in [
        ("61", "assign", "n"),
        ("61{", "assign", "t"),
        ("6162{7a", "assign", "f"),
        ("61[7.2{", "assign", "i-10"),
        ("61[7.2[^", "insert", "i9223372036854775807"),
        ("", "assign", "s"),
        ("61[10.8", "insert", "s00ff"),
        ("61[4294967295.8", "assign", "{"),
        ("61{62[^", "insert", "["),
        ("61{62{63", "delete", ""),
    ] {
        let whole = message("100.3", "10,0,99,4294967295", at, deed, value);
        let mut accepted = 0;
        assert!(read_message(&whole).is_ok());
        each_change(&whole, |_, changed| {
            if let Ok(operation) = read_message(changed) {
                let mut printed = Vec::new();
                operation.write(&mut printed);
                assert_eq!(text(&printed), text(changed));
                accepted += 1;
            }
        });
        assert!(accepted > 50, "{accepted}");
    }
}

#[test]
fn the_lines_of_an_edit() {
    for lines in
        [lines("61[7.2{00", "assign", "i-10"), lines("61[^", "insert", "s00"), lines("61{62", "delete", "")]
    {
        assert!(read_edit(lines.as_bytes()).is_ok());
        each_change(lines.as_bytes(), |_, changed| {
            // An edit is in the layout exactly if a message with those lines is.
            let whole = [b"op=1\nid=1.1\ndeps=0,0,0,0,0,0,0,0\n", changed].concat();
            assert_eq!(read_edit(changed).is_ok(), read_message(&whole).is_ok());
            if let Ok(edit) = read_edit(changed) {
                let mut printed = Vec::new();
                edit.write(&mut printed);
                assert_eq!(text(&printed), text(changed));
            }
        });
    }
}

#[test]
fn what_is_received_changed_is_refused_or_told_from_the_whole() {
    let whole = assign("1.1", "", "61", "i10");
    let expected = after(std::slice::from_ref(&whole));
    each_change(&whole, |_, changed| {
        let mut document = Document::new();
        let answer = document.receive(changed);
        if answer == done(1, 0) && changed != whole {
            assert_ne!(document, expected, "{}", text(changed));
        } else if answer != Answer::Waits {
            assert_eq!(document, Document::new());
        }
    });
}
