//! Settling: what is dropped, what is applied, in which order, and what stays.

mod common;
use common::*;
use sheet::{Answer, Document};

fn ids(document: &Document) -> Vec<String> {
    document
        .waiting()
        .iter()
        .map(|waiting| format!("{}.{}", waiting.id.counter, waiting.id.terminal))
        .collect()
}

/// Puts messages that aren't ready in the document's waiting ones.
fn waits(document: &mut Document, messages: &[Vec<u8>]) {
    for message in messages {
        assert_eq!(document.receive(message), Answer::Waits, "{}", text(message));
    }
}

#[test]
fn a_chain_is_applied_in_one_call() {
    let mut document = Document::new();
    let [a, b, c, d, e] = five();
    waits(&mut document, &[e, d, c, b]);
    assert_eq!(ids(&document), ["4.1", "3.2", "3.1", "2.1"], "in order of arrival");
    assert_eq!(document.receive(&a), done(5, 0));
    assert_eq!(sheet_of(&document), FIVE);
    assert!(document.waiting().is_empty());
}

#[test]
fn an_edit_settles_too() {
    let mut document = Document::new();
    waits(&mut document, &[assign("3.2", "1", "62", "t"), assign("9.2", "1,3", "62", "f")]);
    let mut buffer = [0; 100];
    let answer = document.edit(1, b"at=61\ndo=assign\nvalue=n\n", &mut buffer);
    let message = text(&assign("1.1", "", "61", "n"));
    assert_eq!(answer, Answer::Done { applied: 3, dropped: 0, written: message.len() });
    assert_eq!(text(&buffer[..message.len()]), message);
    assert_eq!(document.seen().0, [1, 9, 0, 0, 0, 0, 0, 0]);
}

#[test]
fn the_message_of_an_edit_has_what_was_seen_before_it_settles() {
    let mut document = Document::new();
    waits(&mut document, &[assign("5.2", "1", "62", "t")]);
    let mut buffer = [0; 200];
    assert_eq!(document.edit(1, b"at=61\ndo=delete\n", &mut buffer).number(), 0);
    assert!(buffer.starts_with(b"op=1\nid=1.1\ndeps=0,0,0,0,0,0,0,0\n"));
    assert_eq!(document.edit(1, b"at=61\ndo=delete\n", &mut buffer).number(), 0);
    assert!(buffer.starts_with(b"op=1\nid=6.1\ndeps=1,5,0,0,0,0,0,0\n"));
}

#[test]
fn the_smallest_id_goes_first() {
    // Both ready at once, under terminal 2: the smaller one is applied, the other is then 4.
    let mut document = Document::new();
    waits(&mut document, &[assign("7.2", "1", "62", "t"), assign("5.2", "1", "63", "f")]);
    assert_eq!(document.receive(&assign("1.1", "", "61", "n")), done(2, 1));
    assert_eq!(document.seen().0[1], 5);
    let keys = read(|buffer| document.keys(b"", buffer));
    assert_eq!(keys, (0, "61\n63\n".to_string()));
    assert!(document.waiting().is_empty());
}

#[test]
fn the_smallest_id_goes_first_again_after_each() {
    // All wait for 1.1; then 2.2 alone is ready, and after it 4.3 and 9.2, the smaller first.
    // Both cover 2.2's value and not each other's.
    let mut document = Document::new();
    waits(
        &mut document,
        &[assign("9.2", "1,2", "6b", "i9"), assign("4.3", "1,2", "6b", "i4"), assign("2.2", "1", "6b", "i2")],
    );
    assert_eq!(document.receive(&assign("1.1", "", "61", "n")), done(4, 0));
    let values = read(|buffer| document.values(b"6b", buffer));
    assert_eq!(values, (0, "4.3:i4\n9.2:i9\n".to_string()));
}

#[test]
fn drops_what_is_3_or_4() {
    let mut document = Document::new();
    waits(
        &mut document,
        &[assign("3.1", "2", "61", "t"), assign("5.1", "4", "61", "t"), assign("9.1", "6", "61", "t")],
    );
    // 5.1 by another text: 3.1 and 5.1 are 3; 9.1's own entry 6 is still ahead.
    assert_eq!(document.receive(&assign("5.1", "", "62", "f")), done(1, 2));
    assert_eq!(ids(&document), ["9.1"]);
    // 8.1: 9.1's own entry 6 is now below: 4.
    assert_eq!(document.receive(&assign("8.1", "5", "62", "f")), done(1, 1));
    assert!(document.waiting().is_empty());
}

#[test]
fn an_old_one_is_dropped_though_it_is_not_ready() {
    let mut document = Document::new();
    waits(&mut document, &[assign("3.1", "0,2", "61", "t")]);
    assert_eq!(document.receive(&assign("4.1", "", "62", "f")), done(1, 1));
}

#[test]
fn drops_what_is_8_once_it_is_ready() {
    let mut document = Document::new();
    // Both need 1.1 first; then 2.2 names an element that no list has, and 2.3 names none.
    waits(&mut document, &[assign("2.2", "1", "6c[1.1", "t"), insert("2.3", "1", "6c[^", "t")]);
    assert_eq!(document.receive(&assign("1.1", "", "6c", "[")), done(2, 1));
    assert_eq!(document.seen().0, [1, 0, 2, 0, 0, 0, 0, 0]);
}

#[test]
fn what_is_8_only_when_ready_stays_until_then() {
    let mut document = after(&[assign("1.1", "", "6c", "[")]);
    // The element 2.1 isn't there yet, but this one isn't ready yet either.
    waits(&mut document, &[assign("3.2", "2", "6c[2.1{61", "t")]);
    assert_eq!(document.receive(&assign("1.3", "", "61", "t")), done(1, 0));
    assert_eq!(ids(&document), ["3.2"]);
    assert_eq!(document.receive(&insert("2.1", "1", "6c[^", "{")), done(2, 0));
    assert!(document.waiting().is_empty());
}

#[test]
fn what_is_8_because_it_came_before_its_element_is_dropped_even_if_the_element_would_come() {
    let mut document = after(&[assign("1.1", "", "6c", "[")]);
    // 4.2 names 5.3, which it doesn't cover; 5.3 waits for the same 1.4 and is applied next.
    waits(&mut document, &[insert("5.3", "1,0,0,1", "6c[^", "t"), delete("4.2", "1,0,0,1", "6c[5.3")]);
    assert_eq!(document.receive(&assign("1.4", "", "61", "n")), done(2, 1));
}

/// 256 places, each with a mark and a value.
fn full() -> Document {
    let mut sheet = "sheet=1\nseen=1,0,0,0,0,0,0,0\n".to_string();
    for key in 0..256 {
        sheet.push_str(&format!("place=1{{-{key:02x}\nmark=1.1\nvalue=1.1:n\n"));
    }
    loaded(&format!("{sheet}end=256\n"))
}

#[test]
fn what_10_stops_stays_and_what_is_greater_goes_ahead() {
    let mut document = full();
    waits(
        &mut document,
        &[assign("2.2", "0,0,1", "00", "t"), delete("3.4", "0,0,1", "01"), assign("4.5", "1,0,1", "02", "t")],
    );
    // 2.2 would add a value: 10. 3.4 covers nothing and goes; 4.5 replaces a value and goes.
    assert_eq!(document.receive(&delete("1.3", "", "03")), done(3, 0));
    assert_eq!(ids(&document), ["2.2"]);
    assert_eq!(document.receive(&assign("2.2", "0,0,1", "00", "t")), Answer::OverLimit, "ready, so not 6");
    // A delete makes room: 2.2 is applied in the same call.
    assert_eq!(document.receive(&delete("5.3", "1,0,1", "03")), done(2, 0));
    assert!(document.waiting().is_empty());
    assert_eq!(document.size().values, 256);
    assert_eq!(read(|buffer| document.values(b"00", buffer)), (0, "1.1:n\n2.2:t\n".to_string()));
}

#[test]
fn a_ready_message_that_10_refuses_is_not_kept() {
    let mut document = full();
    assert_eq!(document.receive(&assign("1.2", "", "00", "t")), Answer::OverLimit);
    assert!(document.waiting().is_empty());
}

#[test]
fn the_smallest_of_those_that_10_stops_goes_first_when_there_is_room_for_one() {
    let mut document = full();
    waits(
        &mut document,
        &[
            assign("9.2", "0,0,1", "00", "t"),
            assign("7.4", "0,0,1", "01", "t"),
            assign("8.5", "0,0,1", "02", "t"),
        ],
    );
    assert_eq!(document.receive(&delete("1.3", "", "03")), done(1, 0));
    assert_eq!(ids(&document), ["9.2", "7.4", "8.5"]);
    assert_eq!(document.receive(&delete("5.3", "1,0,1", "03")), done(2, 0));
    assert_eq!(ids(&document), ["9.2", "8.5"]);
}

#[test]
fn nothing_settles_after_a_refusal_a_read_or_a_save() {
    let mut document = full();
    waits(&mut document, &[assign("2.2", "0,0,1", "00", "t")]);
    assert_eq!(document.receive(&delete("1.3", "", "03")), done(1, 0));
    let before = document.clone();
    assert_eq!(document.receive(b"junk"), Answer::NotInLayout);
    assert_eq!(document.keys(b"", &mut [0; 1000]).number(), 0);
    assert_eq!(document.save(&mut [0; 60_000]).number(), 0);
    assert_eq!(document.load(b"junk"), Answer::BreaksAt { line: 1 });
    assert_eq!(document, before);
}

#[test]
fn a_load_leaves_nothing_waiting() {
    let mut document = Document::new();
    waits(&mut document, &[assign("2.1", "1", "61", "t")]);
    assert_eq!(document.load(b"sheet=1\nseen=1,0,0,0,0,0,0,0\nend=0\n"), done(0, 0));
    assert!(document.waiting().is_empty());
    assert_eq!(sheet_of(&document), "sheet=1\nseen=1,0,0,0,0,0,0,0\nend=0\n");
}
