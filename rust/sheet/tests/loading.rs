//! Document 01, "The saved sheet": each rule broken at its line, and kept at its border.

mod common;
use common::*;
use sheet::{Answer, Document};

/// 0 if the sheet is accepted (and then saved back as it was), else the line that breaks a rule.
fn breaks(sheet: &str) -> usize {
    let before = after(&[assign("1.8", "", "7a", "t")]);
    let mut document = before.clone();
    match document.load(sheet.as_bytes()) {
        Answer::BreaksAt { line } => {
            assert_eq!(document, before);
            line
        }
        answer => {
            assert_eq!(answer, done(0, 0));
            assert_eq!(sheet_of(&document), sheet);
            0
        }
    }
}

/// A sheet with these lines between `seen=` and `end=`; the first of them is line 3.
fn with(lines: &str) -> String {
    let count = lines.lines().filter(|line| line.starts_with("place=")).count();
    format!("sheet=1\nseen=9,9,0,0,0,0,0,0\n{lines}end={count}\n")
}

#[test]
fn the_example_and_the_empty_sheet_are_accepted() {
    assert_eq!(breaks(FIVE), 0);
    assert_eq!(breaks(&with("")), 0);
}

#[test]
fn missing_lines_and_lines_without_lf_break_at_their_own_number() {
    assert_eq!(breaks(""), 1);
    assert_eq!(breaks("sheet=1"), 1);
    assert_eq!(breaks("sheet=1\n"), 2);
    assert_eq!(breaks("sheet=1\nseen=0,0,0,0,0,0,0,0"), 2);
    assert_eq!(breaks("sheet=1\nseen=0,0,0,0,0,0,0,0\n"), 3);
    assert_eq!(breaks("sheet=1\nseen=0,0,0,0,0,0,0,0\nend=0"), 3);
    let lines: Vec<&str> = FIVE.split_inclusive('\n').collect();
    for count in 0..lines.len() {
        let start = lines[..count].concat();
        assert_eq!(breaks(&start), count + 1, "{start}");
        assert_eq!(breaks(&format!("{start}{}", lines[count].trim_end())), count + 1);
    }
}

#[test]
fn bytes_after_the_end_break_at_the_next_number() {
    for more in ["\n", "x", "x\n", "end=4\n", "end=4", "\0", "place=1{-74\n"] {
        assert_eq!(breaks(&format!("{FIVE}{more}")), 16, "{more}");
    }
}

#[test]
fn the_first_two_lines() {
    for first in
        ["sheet=2", "sheet=", "sheet=01", "Sheet=1", " sheet=1", "sheet=1 ", "", "seen=0,0,0,0,0,0,0,0"]
    {
        assert_eq!(breaks(&format!("{first}\nseen=0,0,0,0,0,0,0,0\nend=0\n")), 1, "{first}");
    }
    for seen in [
        "",
        "0",
        "0,0,0,0,0,0,0",
        "0,0,0,0,0,0,0,0,0",
        "0,0,0,0,0,0,0,4294967296",
        "00,0,0,0,0,0,0,0",
        "-0,0,0,0,0,0,0,0",
    ] {
        assert_eq!(breaks(&format!("sheet=1\nseen={seen}\nend=0\n")), 2, "{seen}");
    }
    assert_eq!(breaks("sheet=1\nseen=0,4294967295,0,10,0,0,0,1\nend=0\n"), 0);
    assert_eq!(breaks("sheet=1\nend=0\n"), 2);
}

#[test]
fn the_end_has_the_number_of_places() {
    let place = "sheet=1\nseen=0,0,0,0,0,0,0,0\nplace=1{-61\n";
    assert_eq!(breaks(&format!("{place}end=1\n")), 0);
    for end in
        ["end=0", "end=2", "end=01", "end=", "end=1 ", "end=-1", "end=18446744073709551617", "End=1", "end"]
    {
        assert_eq!(breaks(&format!("{place}{end}\n")), 4, "{end}");
    }
}

#[test]
fn lines_that_are_none_of_a_sheet() {
    for line in [
        "",
        "x",
        "mark",
        "mark=",
        "value=",
        "place=",
        "places=1{-61",
        "sheet=1",
        "seen=9,9,0,0,0,0,0,0",
        "mark =1.1",
    ] {
        assert_eq!(breaks(&with(&format!("place=1{{-61\n{line}\n"))), 4, "{line}");
    }
}

#[test]
fn the_layout_of_a_place() {
    for place in ["1{-", "1{m00", "1{l61ff", "1{b00112233445566778899aabbccddeeff"] {
        assert_eq!(breaks(&with(&format!("place={place}\n"))), 0, "{place}");
    }
    for place in [
        "0{-61",
        "9{-61",
        "10{-61",
        "01{-61",
        "{-61",
        "1-61",
        "1{61",
        "1{x61",
        "1{M61",
        "1(-61",
        "1{-6",
        "1{-6A",
        "1{-61 ",
        "1{-00112233445566778899aabbccddeeff00",
        "1{-1.1",
        "1",
        "1{",
        "",
        "1{-^",
        "1{--61",
    ] {
        assert_eq!(breaks(&with(&format!("place={place}\n"))), 3, "{place}");
    }
    for element in ["", "61", "0.1", "1.0", "1.9", "01.1", "1", "1.1.1", "^", "1.1 ", "4294967296.1"] {
        assert_eq!(breaks(&with(&format!("place=1{{l61\nplace=2[-{element}\n"))), 4, "{element}");
    }
    assert_eq!(breaks(&with("place=1{l61\nplace=2[-1.1\n")), 0);
}

#[test]
fn depth_is_at_most_one_more_than_before() {
    assert_eq!(breaks(&with("place=2{m61\n")), 3);
    assert_eq!(breaks(&with("place=1{m61\nplace=3{m61\n")), 4);
    assert_eq!(breaks(&with("place=1{m61\nplace=2{m61\nplace=2{m62\nplace=4{m61\n")), 6);
    assert_eq!(breaks(&with("place=1{m61\nplace=2{m61\nplace=3{m62\nplace=1{m62\nplace=3{m61\n")), 7);
    assert_eq!(
        breaks(&with("place=1{m61\nplace=2{m61\nplace=3{m62\nplace=2{m62\nplace=3{m61\nplace=1{m62\n")),
        0
    );
    let eight: String = (1..=8).map(|depth| format!("place={depth}{{m61\n")).collect();
    assert_eq!(breaks(&with(&eight)), 0);
    assert_eq!(breaks(&with(&format!("{eight}place=9{{-61\n"))), 11);
}

#[test]
fn the_parent_has_the_branch() {
    assert_eq!(breaks(&with("place=1[-1.1\n")), 3, "the root is a map");
    for (flags, map, list) in [("-", 4, 4), ("m", 0, 4), ("l", 4, 0), ("b", 0, 0)] {
        assert_eq!(breaks(&with(&format!("place=1{{{flags}61\nplace=2{{-61\n"))), map, "{flags}");
        assert_eq!(breaks(&with(&format!("place=1{{{flags}61\nplace=2[-1.1\n"))), list, "{flags}");
    }
    // The parent is the last place of the depth above, not the line before.
    assert_eq!(
        breaks(&with("place=1{m61\nplace=2{-61\nplace=2{-62\nplace=2{l63\nplace=3[-1.1\nplace=2{-64\n")),
        0
    );
    assert_eq!(breaks(&with("place=1{m61\nplace=2{l61\nplace=2{-62\nplace=3[-1.1\n")), 6);
}

#[test]
fn keys_ascend_and_stand_before_elements() {
    assert_eq!(breaks(&with("place=1{-61\nplace=1{-62\n")), 0);
    assert_eq!(breaks(&with("place=1{-62\nplace=1{-61\n")), 4);
    assert_eq!(breaks(&with("place=1{-61\nplace=1{-61\n")), 4);
    assert_eq!(breaks(&with("place=1{-\nplace=1{-\n")), 4);
    assert_eq!(breaks(&with("place=1{-\nplace=1{-00\nplace=1{-0000\nplace=1{-01\n")), 0);
    assert_eq!(breaks(&with("place=1{-6100\nplace=1{-61\n")), 4, "the shorter first");
    assert_eq!(breaks(&with("place=1{m61\nplace=2{-63\nplace=1{m62\nplace=2{-61\n")), 0, "in each map anew");
    assert_eq!(breaks(&with("place=1{m62\nplace=2{-63\nplace=1{-61\n")), 5, "over what is between");
    assert_eq!(breaks(&with("place=1{b61\nplace=2{-61\nplace=2[-1.1\nplace=2[-2.1\n")), 0);
    assert_eq!(breaks(&with("place=1{b61\nplace=2[-1.1\nplace=2{-61\n")), 5);
    assert_eq!(breaks(&with("place=1{b61\nplace=2{-61\nplace=2[m1.1\nplace=3{-00\nplace=2{-62\n")), 7);
}

#[test]
fn no_element_stands_twice_in_the_sheet() {
    assert_eq!(breaks(&with("place=1{l61\nplace=2[-1.1\nplace=2[-1.2\n")), 0);
    assert_eq!(breaks(&with("place=1{l61\nplace=2[-1.1\nplace=2[-2.1\nplace=2[-1.1\n")), 6);
    assert_eq!(breaks(&with("place=1{l61\nplace=2[-1.1\nplace=1{l62\nplace=2[-1.1\n")), 6, "in another list");
    assert_eq!(breaks(&with("place=1{l61\nplace=2[l1.1\nplace=3[-1.1\n")), 5, "under itself");
    assert_eq!(breaks(&with("place=1{l61\nplace=2[-9.2\nplace=2[-1.1\nplace=2[-5.2\n")), 0, "in any order");
}

#[test]
fn every_id_is_covered_by_seen() {
    assert_eq!(breaks(&with("place=1{l61\nplace=2[-9.1\n")), 0);
    assert_eq!(breaks(&with("place=1{l61\nplace=2[-10.1\n")), 4);
    assert_eq!(breaks(&with("place=1{l61\nplace=2[-1.3\n")), 4);
    assert_eq!(breaks(&with("place=1{-61\nmark=9.2\n")), 0);
    assert_eq!(breaks(&with("place=1{-61\nmark=10.2\n")), 4);
    assert_eq!(breaks(&with("place=1{-61\nmark=1.8\n")), 4);
}

#[test]
fn marks_ascend() {
    assert_eq!(breaks(&with("place=1{-61\nmark=1.1\nmark=1.2\nmark=2.1\nmark=9.1\n")), 0);
    assert_eq!(breaks(&with("place=1{-61\nmark=1.2\nmark=1.1\n")), 5);
    assert_eq!(breaks(&with("place=1{-61\nmark=2.1\nmark=1.2\n")), 5);
    assert_eq!(breaks(&with("place=1{-61\nmark=1.1\nmark=1.1\n")), 5);
    assert_eq!(breaks(&with("place=1{-61\nmark=2.1\nplace=1{-62\nmark=1.1\n")), 0, "in each place anew");
    assert_eq!(breaks(&with("mark=1.1\n")), 3, "before the first place");
    for mark in ["1", "1.", "1.1 ", "01.1", "0.1", "1.9", "1.1:n"] {
        assert_eq!(breaks(&with(&format!("place=1{{-61\nmark={mark}\n"))), 4, "{mark}");
    }
}

#[test]
fn marks_are_among_the_parents() {
    assert_eq!(breaks(&with("place=1{m61\nmark=1.1\nmark=3.1\nplace=2{-61\nmark=3.1\n")), 0);
    assert_eq!(breaks(&with("place=1{m61\nmark=1.1\nmark=3.1\nplace=2{-61\nmark=2.1\n")), 7);
    assert_eq!(breaks(&with("place=1{m61\nplace=2{-61\nmark=2.1\n")), 5);
    assert_eq!(
        breaks(&with("place=1{m61\nmark=1.1\nplace=2{m61\nplace=3{-61\nmark=1.1\n")),
        7,
        "its own parent's"
    );
    // The neighbour's marks don't count.
    assert_eq!(
        breaks(&with("place=1{m61\nmark=1.1\nplace=2{-61\nmark=1.1\nplace=2{l62\nplace=3[-1.2\nmark=1.1\n")),
        9
    );
}

#[test]
fn values_ascend_and_are_among_the_marks() {
    let marks = "place=1{m61\nmark=1.1\nmark=2.1\nmark=2.2\n";
    assert_eq!(breaks(&with(&format!("{marks}value=1.1:n\nvalue=2.2:t\n"))), 0);
    assert_eq!(breaks(&with(&format!("{marks}value=2.2:n\nvalue=1.1:t\n"))), 8);
    assert_eq!(breaks(&with(&format!("{marks}value=2.2:n\nvalue=2.2:t\n"))), 8);
    assert_eq!(breaks(&with(&format!("{marks}value=1.2:n\n"))), 7);
    assert_eq!(breaks(&with(&format!("{marks}place=2{{-61\nvalue=1.1:n\n"))), 8, "its own marks");
    assert_eq!(breaks(&with(&format!("{marks}value=1.1:n\nmark=3.1\n"))), 8, "a mark behind a value");
    assert_eq!(breaks(&with("value=1.1:n\n")), 3, "before the first place");
}

#[test]
fn the_layout_of_a_value() {
    let place = "place=1{-61\nmark=1.1\n";
    let longest = format!("s{}", "ab".repeat(32));
    for value in ["n", "t", "f", "i0", "i-9223372036854775808", "i9223372036854775807", "s", "s00", &longest]
    {
        assert_eq!(breaks(&with(&format!("{place}value=1.1:{value}\n"))), 0, "{value}");
    }
    let longer = format!("{longest}ab");
    for value in
        ["", "{", "[", "x", "i", "i-0", "i01", "i9223372036854775808", "s0", "sAB", "n ", "t:", &longer]
    {
        assert_eq!(breaks(&with(&format!("{place}value=1.1:{value}\n"))), 5, "{value}");
    }
    for line in ["value=1.1", "value=1.1n", "value=:n", "value=1.1 :n", "value=01.1:n", "value=1:n"] {
        assert_eq!(breaks(&with(&format!("{place}{line}\n"))), 5, "{line}");
    }
}

#[test]
fn the_limits_break_at_their_own_line() {
    let places: String = (0..256).map(|key| format!("place=1{{m{key:02x}\n")).collect();
    assert_eq!(breaks(&with(&places)), 0);
    assert_eq!(breaks(&with(&format!("{places}place=2{{-00\n"))), 2 + 257);

    // 8 places with 128 marks each.
    let marks: String = (1..=128).map(|counter| format!("mark={counter}.1\n")).collect();
    let full: String = (0..8).map(|key| format!("place=1{{-0{key}\n{marks}")).collect();
    let seen = |lines: &str| with(lines).replace("seen=9", "seen=200");
    assert_eq!(breaks(&seen(&full)), 0);
    assert_eq!(breaks(&seen(&format!("{full}mark=129.1\n"))), 2 + 8 * 129 + 1);
    assert_eq!(breaks(&seen(&format!("{full}place=1{{-09\n"))), 0);

    // 2 places with 128 values each.
    let values: String = (1..=128).map(|counter| format!("value={counter}.1:n\n")).collect();
    let full: String = (0..2).map(|key| format!("place=1{{-0{key}\n{marks}{values}")).collect();
    assert_eq!(breaks(&seen(&full)), 0);
    assert_eq!(breaks(&seen(&format!("{full}place=1{{-09\nmark=1.1\n"))), 0);
    assert_eq!(breaks(&seen(&format!("{full}place=1{{-09\nmark=1.1\nvalue=1.1:n\n"))), 2 + 2 * 257 + 3);
}

#[test]
fn the_longest_sheet_has_51053_bytes() {
    let seen = ["4294967295"; 8].join(",");
    let mut sheet = format!("sheet=1\nseen={seen}\n");
    for key in 0..256 {
        sheet.push_str(&format!("place=1{{b{}\n", format!("{key:02x}").repeat(16)));
        for terminal in 5..=8 {
            sheet.push_str(&format!("mark=4294967295.{terminal}\n"));
        }
        sheet.push_str(&format!("value=4294967295.8:s{}\n", "fe".repeat(32)));
    }
    sheet.push_str("end=256\n");
    assert_eq!(sheet.len(), 51_053);
    assert_eq!(breaks(&sheet), 0);
}

#[test]
fn a_very_long_line_breaks_at_its_own_number() {
    let long = "0".repeat(1_000_000);
    for line in ["place=1{-", "mark=", "value=1.1:s", "value=1.1:i", "end=", "x"] {
        assert_eq!(breaks(&with(&format!("place=1{{-61\nmark=1.1\n{line}{long}\n"))), 5, "{line}");
    }
}

#[test]
fn a_loaded_sheet_takes_the_place_of_the_document() {
    let mut document = after(&[assign("1.1", "", "61", "t")]);
    assert_eq!(document.load(FIVE.as_bytes()), done(0, 0));
    assert_eq!(sheet_of(&document), FIVE);
    assert_eq!(document, after(&five()));
    assert_eq!(document.load(with("").as_bytes()), done(0, 0));
    assert_eq!(keys_of(&document), "");
}

fn keys_of(document: &Document) -> String {
    read(|buffer| document.keys(b"", buffer)).1
}
