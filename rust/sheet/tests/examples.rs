//! Document 01, "Twelve examples to prove". The sheets are written out by hand.

mod common;
use common::*;
use sheet::{Answer, Document};

#[test]
fn example_1_the_five_messages_and_the_last_two_exchanged() {
    let [a, b, c, d, e] = five();
    let in_order = after(&[a.clone(), b.clone(), c.clone(), d.clone(), e.clone()]);
    let exchanged = after(&[a, b, c, e, d]);
    assert_eq!(sheet_of(&in_order), FIVE);
    assert_eq!(sheet_of(&exchanged), FIVE);
    assert_eq!(in_order, exchanged);
}

fn two_at_one_key() -> Document {
    after(&[assign("1.1", "", "6b", "i1"), assign("1.2", "", "6b", "i2")])
}

#[test]
fn example_2_two_assign_at_one_key_two_values() {
    let sheet = "\
sheet=1
seen=1,1,0,0,0,0,0,0
place=1{-6b
mark=1.1
mark=1.2
value=1.1:i1
value=1.2:i2
end=1
";
    assert_eq!(sheet_of(&two_at_one_key()), sheet);
}

#[test]
fn example_3_then_one_value_and_all_marks() {
    let mut document = two_at_one_key();
    assert_eq!(document.receive(&assign("2.1", "1,1", "6b", "i3")), done(1, 0));
    let sheet = "\
sheet=1
seen=2,1,0,0,0,0,0,0
place=1{-6b
mark=1.1
mark=1.2
mark=2.1
value=2.1:i3
end=1
";
    assert_eq!(sheet_of(&document), sheet);
}

#[test]
fn example_4_a_delete_leaves_what_it_has_not_seen() {
    let mut document = two_at_one_key();
    assert_eq!(document.receive(&delete("2.1", "1,0", "6b")), done(1, 0));
    let sheet = "\
sheet=1
seen=2,1,0,0,0,0,0,0
place=1{-6b
mark=1.2
value=1.2:i2
end=1
";
    assert_eq!(sheet_of(&document), sheet);
}

#[test]
fn example_5_a_plain_value_leaves_the_map_under_it() {
    let document = after(&[
        assign("1.1", "", "6d", "{"),
        assign("2.1", "1", "6d{61", "i1"),
        assign("3.1", "2", "6d", "i2"),
    ]);
    let sheet = "\
sheet=1
seen=3,0,0,0,0,0,0,0
place=1{m6d
mark=1.1
mark=2.1
mark=3.1
value=3.1:i2
place=2{-61
mark=2.1
value=2.1:i1
end=2
";
    assert_eq!(sheet_of(&document), sheet);
}

#[test]
fn example_6_an_empty_map_clears_but_the_place_stays() {
    let document = after(&[
        assign("1.1", "", "6d", "{"),
        assign("2.1", "1", "6d{61", "i1"),
        assign("3.1", "2", "6d", "{"),
    ]);
    let sheet = "\
sheet=1
seen=3,0,0,0,0,0,0,0
place=1{m6d
mark=3.1
place=2{-61
end=2
";
    assert_eq!(sheet_of(&document), sheet);
}

#[test]
fn example_7_an_edit_under_a_deleted_element_brings_it_back() {
    let first = [assign("1.1", "", "73", "["), insert("2.1", "1", "73[^", "s61")];
    let deleted = delete("3.1", "2", "73[2.1");
    let edited = assign("3.2", "2,0", "73[2.1{61", "t");
    let sheet = "\
sheet=1
seen=3,3,0,0,0,0,0,0
place=1{l73
mark=1.1
mark=2.1
mark=3.2
place=2[m2.1
mark=3.2
place=3{-61
mark=3.2
value=3.2:t
end=3
";
    for order in [[&deleted, &edited], [&edited, &deleted]] {
        let mut document = after(&first);
        for message in order {
            assert_eq!(document.receive(message), done(1, 0));
        }
        assert_eq!(sheet_of(&document), sheet);
        assert_eq!(read(|buffer| document.element(b"73[", 1, buffer)), (0, "2.1\n".to_string()));
    }
}

#[test]
fn example_8_the_first_message_again() {
    let mut document = after(&five());
    assert_eq!(document.receive(&five()[0]), Answer::NotAboveSeen);
    assert_eq!(sheet_of(&document), FIVE);
}

#[test]
fn example_9_own_entry_ahead_of_seen() {
    let mut document = Document::new();
    let ahead = assign("2.1", "1", "61", "t");
    assert_eq!(document.receive(&ahead), Answer::Waits);
    assert_eq!(document.receive(&ahead), Answer::WaitsAlready);
    assert_eq!(document.waiting().len(), 1);
    assert_eq!(sheet_of(&document), "sheet=1\nseen=0,0,0,0,0,0,0,0\nend=0\n");
}

#[test]
fn example_10_counter_not_above_the_deps() {
    let mut document = Document::new();
    assert_eq!(document.receive(&assign("2.1", "2,0", "61", "t")), Answer::NotAboveDeps);
    assert_eq!(document, Document::new());
}

#[test]
fn example_11_way_through_an_uncovered_element() {
    let mut document = after(&[assign("1.1", "", "73", "["), insert("2.1", "1", "73[^", "{")]);
    let before = document.clone();
    assert_eq!(document.receive(&assign("3.2", "1,0", "73[2.1{61", "t")), Answer::NotAnElement);
    assert_eq!(document, before);
    assert_eq!(document.receive(&assign("3.2", "2,0", "73[2.1{61", "t")), done(1, 0));
}

#[test]
fn example_12_delete_of_an_unknown_key() {
    let document = after(&[delete("1.1", "", "61")]);
    assert_eq!(sheet_of(&document), "sheet=1\nseen=1,0,0,0,0,0,0,0\nend=0\n");
}
