//! Document 01, "Applying an operation", rule by rule. The sheets are written out by hand.

mod common;
use common::*;

/// The lines between `seen=` and `end=` of the sheet after these messages.
fn places(messages: &[Vec<u8>]) -> String {
    let sheet = sheet_of(&after(messages));
    let lines: Vec<&str> = sheet.lines().collect();
    lines[2..lines.len() - 1].join("\n")
}

#[test]
fn descent_makes_marks_and_flags_each_place_on_the_way() {
    let messages = [assign("1.1", "", "61{62", "t"), insert("2.1", "1", "61{63[^", "n")];
    let expected = "\
place=1{m61
mark=1.1
mark=2.1
place=2{-62
mark=1.1
value=1.1:t
place=2{l63
mark=2.1
place=3[-2.1
mark=2.1
value=2.1:n";
    assert_eq!(places(&messages), expected);
}

#[test]
fn descent_of_a_delete_makes_and_flags_but_marks_nothing() {
    assert_eq!(places(&[delete("1.1", "", "61{62")]), "place=1{m61");
    assert_eq!(places(&[delete("1.1", "", "61{62{63")]), "place=1{m61\nplace=2{m62");
    let messages =
        [assign("1.1", "", "61", "["), insert("2.1", "1", "61[^", "n"), delete("3.1", "2", "61[2.1{62")];
    let expected = "place=1{l61\nmark=1.1\nmark=2.1\nplace=2[m2.1\nmark=2.1\nvalue=2.1:n";
    assert_eq!(places(&messages), expected);
}

#[test]
fn a_place_can_have_both_branches_and_values() {
    let messages = [
        assign("1.1", "", "61", "t"),
        assign("2.1", "1", "61{62", "n"),
        insert("3.1", "2", "61[^", "f"),
        assign("4.1", "3", "61", "i0"),
    ];
    let expected = "\
place=1{b61
mark=1.1
mark=2.1
mark=3.1
mark=4.1
value=4.1:i0
place=2{-62
mark=2.1
value=2.1:n
place=2[-3.1
mark=3.1
value=3.1:f";
    assert_eq!(places(&messages), expected);
}

#[test]
fn a_plain_value_replaces_only_covered_values() {
    let messages =
        [assign("1.1", "", "61", "t"), assign("2.2", "0", "61", "f"), assign("3.3", "0,2", "61", "n")];
    let expected = "place=1{-61\nmark=1.1\nmark=2.2\nmark=3.3\nvalue=1.1:t\nvalue=3.3:n";
    assert_eq!(places(&messages), expected);
}

#[test]
fn an_empty_list_clears_both_branches_down_to_the_last() {
    let messages = [
        assign("1.1", "", "61{62{63", "t"),
        insert("2.1", "1", "61[^", "{"),
        assign("3.1", "2", "61[2.1{64", "f"),
        assign("3.2", "2", "61[2.1{65", "n"),
        assign("4.1", "3", "61", "["),
    ];
    let expected = "\
place=1{b61
mark=3.2
mark=4.1
place=2{m62
place=3{-63
place=2[m2.1
mark=3.2
place=3{-64
place=3{-65
mark=3.2
value=3.2:n";
    assert_eq!(places(&messages), expected);
}

#[test]
fn an_empty_map_or_list_takes_covered_values_of_its_own_place() {
    let first = [assign("1.1", "", "61", "t"), assign("1.2", "", "61", "f")];
    for (value, flag) in [("{", "m"), ("[", "l")] {
        let messages = [&first[..], &[assign("2.1", "1,0", "61", value)]].concat();
        assert_eq!(places(&messages), format!("place=1{{{flag}61\nmark=1.2\nmark=2.1\nvalue=1.2:f"));
        let messages = [&first[..], &[assign("2.1", "1,1", "61", value)]].concat();
        assert_eq!(places(&messages), format!("place=1{{{flag}61\nmark=2.1"));
    }
}

#[test]
fn flags_stay() {
    let messages = [
        assign("1.1", "", "61", "{"),
        assign("2.1", "1", "61", "["),
        delete("3.1", "2", "61"),
        delete("4.1", "3", "62{63"),
        delete("5.1", "4", "62"),
    ];
    assert_eq!(places(&messages), "place=1{b61\nplace=1{m62");
}

/// The elements of the list at 6c, in order.
fn order(messages: &[Vec<u8>]) -> Vec<String> {
    let places = places(messages);
    places.lines().filter_map(|line| line.strip_prefix("place=2[-")).map(String::from).collect()
}

#[test]
fn an_insert_steps_over_greater_ids() {
    let list = [assign("1.1", "", "6c", "["), insert("2.1", "1", "6c[^", "n")];
    let three = [
        insert("3.2", "2", "6c[2.1", "n"),
        insert("3.3", "2", "6c[2.1", "n"),
        insert("5.4", "2", "6c[2.1", "n"),
    ];
    let late = insert("4.5", "2", "6c[2.1", "n");
    for [a, b, c] in [[0, 1, 2], [0, 2, 1], [1, 0, 2], [1, 2, 0], [2, 0, 1], [2, 1, 0]] {
        let messages =
            [&list[..], &[three[a].clone(), three[b].clone(), three[c].clone(), late.clone()]].concat();
        assert_eq!(order(&messages), ["2.1", "5.4", "4.5", "3.3", "3.2"]);
    }
}

#[test]
fn an_insert_at_the_head_steps_over_greater_ids_too() {
    let messages = [
        assign("1.1", "", "6c", "["),
        insert("9.2", "1", "6c[^", "n"),
        insert("8.3", "1", "6c[^", "n"),
        insert("2.1", "1", "6c[^", "n"),
        insert("10.4", "1", "6c[^", "n"),
    ];
    assert_eq!(order(&messages), ["10.4", "9.2", "8.3", "2.1"]);
}

#[test]
fn an_insert_stops_before_the_first_smaller_one() {
    // 3.1 is smaller than 4.2, so 4.2 stands before it, though the greater 9.3 follows.
    let messages = [
        assign("1.1", "", "6c", "["),
        insert("2.1", "1", "6c[^", "n"),
        insert("3.1", "2", "6c[2.1", "n"),
        insert("9.3", "3", "6c[3.1", "n"),
        insert("4.2", "2", "6c[2.1", "n"),
    ];
    assert_eq!(order(&messages), ["2.1", "4.2", "3.1", "9.3"]);
}

#[test]
fn the_same_counter_is_ordered_by_terminal() {
    let messages = [
        assign("1.1", "", "6c", "["),
        insert("2.2", "1", "6c[^", "n"),
        insert("2.3", "1", "6c[^", "n"),
        insert("2.1", "1", "6c[^", "n"),
    ];
    assert_eq!(order(&messages), ["2.3", "2.2", "2.1"]);
}

#[test]
fn a_deleted_element_stays_in_the_order() {
    let messages = [
        assign("1.1", "", "6c", "["),
        insert("2.1", "1", "6c[^", "n"),
        insert("3.1", "2", "6c[2.1", "n"),
        delete("4.1", "3", "6c[2.1"),
        insert("5.1", "4", "6c[2.1", "n"),
    ];
    assert_eq!(order(&messages), ["2.1", "5.1", "3.1"]);
}

#[test]
fn an_inserted_element_has_its_value_and_its_mark_but_prev_has_not() {
    let messages =
        [assign("1.1", "", "6c", "["), insert("2.1", "1", "6c[^", "{"), insert("3.1", "2", "6c[2.1", "[")];
    let expected = "\
place=1{l6c
mark=1.1
mark=2.1
mark=3.1
place=2[m2.1
mark=2.1
place=2[l3.1
mark=3.1";
    assert_eq!(places(&messages), expected);
}

#[test]
fn a_delete_clears_an_element_and_what_is_under_it() {
    let messages = [
        assign("1.1", "", "6c", "["),
        insert("2.1", "1", "6c[^", "{"),
        assign("3.1", "2", "6c[2.1{61", "t"),
        insert("4.2", "2", "6c[2.1[^", "t"),
        delete("5.1", "3", "6c[2.1"),
    ];
    let expected = "\
place=1{l6c
mark=1.1
mark=2.1
mark=3.1
mark=4.2
place=2[b2.1
mark=4.2
place=3{-61
place=3[-4.2
mark=4.2
value=4.2:t";
    assert_eq!(places(&messages), expected);
}

#[test]
fn a_list_and_its_elements_are_made_by_an_insert_alone() {
    let expected = "place=1{l6c\nmark=1.1\nplace=2[-1.1\nmark=1.1\nvalue=1.1:t";
    assert_eq!(places(&[insert("1.1", "", "6c[^", "t")]), expected);
}

#[test]
fn seen_is_raised_to_the_counter_of_the_operation() {
    let document =
        after(&[assign("7.3", "", "61", "t"), delete("9.3", "0,0,7", "62"), assign("8.1", "", "61", "n")]);
    assert_eq!(document.seen().0, [8, 0, 9, 0, 0, 0, 0, 0]);
}
