//! Document 01, "What is answered": each number but 9 given, and not given, at its border,
//! and the order in which they are tried.

mod common;
use common::*;
use sheet::{Answer, Document};

const EMPTY: &str = "sheet=1\nseen=0,0,0,0,0,0,0,0\nend=0\n";
const LAST: &str = "sheet=1\nseen=0,0,4294967295,0,0,0,0,0\nend=0\n";

fn edit(document: &mut Document, device: u64, lines: &str) -> Answer {
    document.edit(device, lines.as_bytes(), &mut [0; 500])
}

#[test]
fn zero_carries_what_was_applied_dropped_and_written() {
    let mut document = Document::new();
    assert_eq!(document.receive(&assign("1.1", "", "61", "t")), done(1, 0));
    let message = "op=1\nid=2.3\ndeps=1,0,0,0,0,0,0,0\nat=61\ndo=assign\nvalue=i-5\n";
    let mut buffer = [b'#'; 80];
    let answer = document.edit(3, b"at=61\ndo=assign\nvalue=i-5\n", &mut buffer);
    assert_eq!(answer, Answer::Done { applied: 1, dropped: 0, written: message.len() });
    assert_eq!(text(&buffer), format!("{message}{}", "#".repeat(80 - message.len())));
    assert_eq!(answer.number(), 0);
}

#[test]
fn one_when_a_message_is_not_in_the_layout() {
    let mut document = Document::new();
    assert_eq!(document.receive(b""), Answer::NotInLayout);
    assert_eq!(document.receive(&assign("0.1", "", "61", "t")), Answer::NotInLayout);
    assert_eq!(document.receive(&assign("1.0", "", "61", "t")), Answer::NotInLayout);
    assert_eq!(document.receive(&assign("1.9", "", "61", "t")), Answer::NotInLayout);
    assert_eq!(document.receive(&assign("1.8", "", "61", "t")), done(1, 0));
}

#[test]
fn one_when_the_device_is_not_1_to_8() {
    let mut document = Document::new();
    let lines = lines("61", "assign", "t");
    for device in [0, 9, 10, 255, 256, 257, u64::MAX] {
        assert_eq!(edit(&mut document, device, &lines), Answer::NotInLayout, "{device}");
    }
    assert_eq!(document, Document::new());
    for device in [1, 8] {
        assert_eq!(edit(&mut document, device, &lines).number(), 0);
    }
    assert_eq!(document.seen().0, [1, 0, 0, 0, 0, 0, 0, 2]);
}

#[test]
fn one_when_an_edit_is_not_in_the_layout() {
    let mut document = Document::new();
    let whole = text(&assign("1.1", "", "61", "t"));
    for lines in ["", "at=61\n", "at=61\ndo=assign\n", "at=61\ndo=assign\nvalue=t", &whole] {
        assert_eq!(edit(&mut document, 1, lines), Answer::NotInLayout, "{lines}");
    }
    assert_eq!(edit(&mut document, 1, "at=61\ndo=assign\nvalue=t\n").number(), 0);
}

#[test]
fn two_when_the_counter_is_not_above_every_deps_entry() {
    for (id, deps, number) in [
        ("3.1", "3", 2),
        ("3.1", "2", 5),
        ("3.1", "4294967295", 2),
        ("3.1", "0,0,0,0,0,0,0,3", 2),
        ("3.1", "0,0,0,0,0,0,0,2", 5),
        ("3.1", "0,4", 2),
        ("4294967295.1", "0,4294967295", 2),
        ("4294967295.1", "0,4294967294", 5),
        ("1.1", "1", 2),
        ("1.1", "", 0),
    ] {
        let mut document = Document::new();
        assert_eq!(document.receive(&assign(id, deps, "61", "t")).number(), number, "{id} {deps}");
    }
}

#[test]
fn three_when_the_counter_is_not_above_the_seen_one() {
    for (id, deps, number) in
        [("5.1", "4", 3), ("4.1", "", 3), ("1.1", "", 3), ("6.1", "5", 0), ("5.2", "", 0)]
    {
        let mut document = loaded("sheet=1\nseen=5,0,0,0,0,0,0,0\nend=0\n");
        assert_eq!(document.receive(&assign(id, deps, "61", "t")).number(), number, "{id} {deps}");
    }
}

#[test]
fn four_when_the_own_entry_is_below_the_seen_one() {
    for (deps, number) in [("4", 4), ("0", 4), ("5", 0), ("6", 5)] {
        let mut document = loaded("sheet=1\nseen=5,0,0,0,0,0,0,0\nend=0\n");
        assert_eq!(document.receive(&assign("7.1", deps, "61", "t")).number(), number, "{deps}");
    }
}

#[test]
fn five_when_it_is_not_ready() {
    for (id, deps, number) in [
        ("9.1", "6,3", 5),
        ("9.1", "5,4", 5),
        ("9.1", "5,3,1", 5),
        ("9.1", "5,3", 0),
        ("9.1", "5,2", 0),
        ("9.1", "5", 0),
    ] {
        let mut document = loaded("sheet=1\nseen=5,3,0,0,0,0,0,0\nend=0\n");
        let answer = document.receive(&assign(id, deps, "61", "t"));
        assert_eq!(answer.number(), number, "{id} {deps}");
        assert_eq!(document.waiting().len(), usize::from(number == 5));
    }
}

#[test]
fn six_when_the_same_id_waits_already() {
    let mut document = Document::new();
    assert_eq!(document.receive(&assign("3.1", "2", "61", "t")), Answer::Waits);
    assert_eq!(document.receive(&assign("3.1", "1", "62", "f")), Answer::WaitsAlready);
    assert_eq!(document.receive(&assign("3.2", "2", "61", "t")), Answer::Waits);
    assert_eq!(document.receive(&assign("4.1", "2", "61", "t")), Answer::Waits);
    // A ready one of the same id is applied, with which 3.2 is ready; 3.1 falls (3), 4.1 too (4).
    assert_eq!(document.receive(&assign("3.1", "", "63", "n")), done(2, 2));
    let sheet = "\
sheet=1
seen=3,3,0,0,0,0,0,0
place=1{-61
mark=3.2
value=3.2:t
place=1{-63
mark=3.1
value=3.1:n
end=2
";
    assert_eq!(sheet_of(&document), sheet);
}

#[test]
fn seven_when_64_wait() {
    let mut document = Document::new();
    for counter in 2..=65 {
        let answer = document.receive(&assign(&format!("{counter}.1"), "1", "61", "t"));
        assert_eq!(answer, Answer::Waits, "{counter}");
    }
    assert_eq!(document.receive(&assign("66.1", "1", "61", "t")), Answer::TooManyWait);
    assert_eq!(
        document.receive(&assign("1.2", "0,0,0,0", "61", "t")),
        done(1, 0),
        "what is ready needn't wait"
    );
    assert_eq!(document.receive(&assign("65.1", "1", "61", "t")), Answer::WaitsAlready, "6 is tried first");
    assert_eq!(document.waiting().len(), 64);
}

#[test]
fn eight_when_an_element_is_not_covered_or_not_in_that_list() {
    // 73 and 74 are lists, 73 with the element 2.1 and that one with the element 4.1.
    let document = after(&[
        assign("1.1", "", "73", "["),
        insert("2.1", "1", "73[^", "["),
        assign("3.1", "2", "74", "["),
        insert("4.1", "3", "73[2.1[^", "t"),
    ]);
    for (at, deed, number) in [
        ("73[2.1", "assign", 0),
        ("73[2.1", "insert", 0),
        ("73[2.1", "delete", 0),
        ("73[2.1{61", "assign", 0),
        ("73[2.1[4.1", "assign", 0),
        ("73[2.1[^", "insert", 0),
        ("73[3.1", "assign", 8),
        ("73[1.1", "insert", 8),
        ("73[4.1", "delete", 8),
        ("73[2.2", "delete", 8),
        ("74[2.1", "assign", 8),
        ("74[2.1", "insert", 8),
        ("74[2.1", "delete", 8),
        ("74[2.1{61", "assign", 8),
        ("75[2.1", "delete", 8),
        ("75[2.1{61", "delete", 8),
        ("75[2.1[^", "insert", 8),
        ("73{61[2.1", "insert", 8),
        ("73[2.1[2.1", "assign", 8),
        ("73[4.1[4.1", "assign", 8),
    ] {
        let lines = lines(at, deed, "n");
        let whole = format!("op=1\nid=5.2\ndeps=4,0,0,0,0,0,0,0\n{lines}");
        let mut received = document.clone();
        assert_eq!(received.receive(whole.as_bytes()).number(), number, "{at} {deed}");
        let mut edited = document.clone();
        assert_eq!(edit(&mut edited, 2, &lines).number(), number, "{at} {deed}");
        assert_eq!(received, edited);
        assert_eq!(received == document, number == 8);
    }
    // Covered by deps, up to the very counter.
    for (deps, number) in [("4", 0), ("3", 8), ("2", 8)] {
        let mut document = document.clone();
        let answer = document.receive(&assign("5.2", deps, "73[2.1[4.1", "t"));
        assert_eq!(answer.number(), number, "{deps}");
    }
}

#[test]
fn nine_cannot_come() {
    // The element's id is covered, so its counter is at most a deps entry (8), and the new
    // counter is above them all (2). The nearest: the counter right above prev's.
    let mut document = after(&[assign("1.1", "", "73", "["), insert("2.8", "1", "73[^", "t")]);
    assert_eq!(document.receive(&insert("2.1", "1,0,0,0,0,0,0,2", "73[2.8", "t")), Answer::NotAboveDeps);
    assert_eq!(document.receive(&insert("2.1", "1,0,0,0,0,0,0,1", "73[2.8", "t")), Answer::NotAnElement);
    assert_eq!(document.receive(&insert("3.1", "1,0,0,0,0,0,0,2", "73[2.8", "t")), done(1, 0));
}

#[test]
fn ten_when_the_document_would_have_too_much() {
    // The borders of the three limits are in limits.rs; here its place among the trials.
    let mut places = String::new();
    for key in 0..256 {
        places.push_str(&format!("place=1{{-{key:02x}\n"));
    }
    let mut document = loaded(&format!("sheet=1\nseen=1,0,0,0,0,0,0,0\n{places}end=256\n"));
    assert_eq!(document.receive(&assign("2.1", "1", "0000", "t")), Answer::OverLimit);
    assert_eq!(
        document.receive(&assign("2.1", "1", "0000[1.1", "t")),
        Answer::NotAnElement,
        "8 is tried first"
    );
    assert_eq!(document.receive(&assign("3.1", "2", "0000", "t")), Answer::Waits, "waiting is tried first");
    let mut buffer = [];
    assert_eq!(document.edit(1, b"at=0000\ndo=delete\n", &mut buffer).number(), 13);
    assert_eq!(
        document.edit(1, b"at=0000\ndo=assign\nvalue=t\n", &mut buffer).number(),
        10,
        "10 comes before 13"
    );
    assert_eq!(document.receive(&assign("2.1", "1", "00", "t")), done(1, 0));
}

#[test]
fn eleven_when_a_seen_entry_is_the_last_counter() {
    let lines = lines("61", "assign", "t");
    assert_eq!(edit(&mut loaded(LAST), 1, &lines), Answer::CountersUsedUp);
    assert_eq!(edit(&mut loaded(LAST), 9, &lines), Answer::NotInLayout, "1 is tried first");
    assert_eq!(
        edit(&mut loaded(LAST), 1, "at=61[1.1\ndo=delete\n"),
        Answer::CountersUsedUp,
        "8 is tried later"
    );
    assert_eq!(loaded(LAST).edit(1, lines.as_bytes(), &mut []), Answer::CountersUsedUp, "13 is tried later");
    let mut document = loaded(&LAST.replace("4294967295", "4294967294"));
    assert_eq!(edit(&mut document, 1, &lines).number(), 0);
    assert_eq!(document.seen().0, [4294967295, 0, 4294967294, 0, 0, 0, 0, 0]);
    assert_eq!(edit(&mut document, 1, &lines), Answer::CountersUsedUp);
    assert_eq!(loaded(LAST).receive(&assign("1.1", "", "61", "t")), done(1, 0), "only of local edits");
}

#[test]
fn twelve_when_a_sheet_breaks_a_rule() {
    // The rules one by one are in loading.rs.
    assert_eq!(Document::new().load(FIVE.as_bytes()), done(0, 0));
    assert_eq!(Document::new().load(&FIVE.as_bytes()[1..]), Answer::BreaksAt { line: 1 });
    assert_eq!(Document::new().load(&FIVE.as_bytes()[..FIVE.len() - 1]), Answer::BreaksAt { line: 15 });
}

#[test]
fn thirteen_when_the_buffer_is_too_short() {
    let mut document = after(&five());
    let element = |buffer: &mut [u8]| document.element(b"73[", 1, buffer);
    let keys = |buffer: &mut [u8]| document.keys(b"", buffer);
    let values = |buffer: &mut [u8]| document.values(b"73[3.2", buffer);
    let save = |buffer: &mut [u8]| document.save(buffer);
    border(element, "3.2\n");
    border(keys, "73\n");
    border(values, "3.2:s63\n");
    border(save, FIVE);
    let lines = b"at=73\ndo=delete\n";
    let needed = 5 + 7 + 21 + 16;
    let mut short = vec![b'#'; needed - 1];
    assert_eq!(document.edit(5, lines, &mut short), Answer::BufferShort { needed });
    assert_eq!(sheet_of(&document), FIVE);
    assert!(short.iter().all(|&byte| byte == b'#'));
    let mut enough = vec![b'#'; needed];
    assert_eq!(
        document.edit(5, lines, &mut enough),
        Answer::Done { applied: 1, dropped: 0, written: needed }
    );
    assert_eq!(text(&enough), "op=1\nid=5.5\ndeps=4,3,0,0,0,0,0,0\nat=73\ndo=delete\n");
}

/// Writes into a longer buffer and one of just the length, not into one that is shorter.
fn border(call: impl Fn(&mut [u8]) -> Answer, expected: &str) {
    let needed = expected.len();
    for length in [needed, needed + 1, needed + 100] {
        let mut buffer = vec![b'#'; length];
        assert_eq!(call(&mut buffer), wrote(needed));
        assert_eq!(text(&buffer), format!("{expected}{}", "#".repeat(length - needed)));
    }
    for length in [needed - 1, 0] {
        let mut buffer = vec![b'#'; length];
        assert_eq!(call(&mut buffer), Answer::BufferShort { needed });
        assert!(buffer.iter().all(|&byte| byte == b'#'));
    }
}

#[test]
fn thirteen_is_not_given_when_nothing_is_written() {
    let document = loaded(EMPTY);
    assert_eq!(document.keys(b"", &mut []), wrote(0));
    assert_eq!(document.save(&mut []), Answer::BufferShort { needed: EMPTY.len() });
}

#[test]
fn fourteen_when_there_is_nothing_to_read() {
    let document = after(&five());
    let element = |way: &[u8], index| document.element(way, index, &mut []).number();
    let values = |way: &[u8]| document.values(way, &mut []).number();
    let keys = |way: &[u8]| document.keys(way, &mut []).number();
    assert_eq!([0, 1, 2, 3, u64::MAX].map(|index| element(b"73[", index)), [14, 13, 13, 14, 14]);
    assert_eq!(element(b"72[", 1), 14, "unknown");
    assert_eq!(values(b"73[2.1"), 14, "without marks");
    assert_eq!(values(b"73[9.1"), 14, "an unknown element, not 8");
    assert_eq!(values(b"73[2.1{61"), 14, "under a place without marks");
    assert_eq!(values(b"73[3.1"), 13, "present");
    assert_eq!(values(b"73"), 0, "present, no values");
    assert_eq!(keys(b"73{"), 0, "present, no map");
    assert_eq!(keys(b"72{"), 14);
    assert_eq!(keys(b"73[2.1{"), 14);
    assert_eq!(element(b"73[3.1[", 1), 14, "present, no list");
    assert_eq!(values(b"73{"), 14, "the empty key in the map of 73");
    assert_eq!(values(b"72}"), 1, "1 is tried first");
}
