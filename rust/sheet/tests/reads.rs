//! Document 01, "Reads".

mod common;
use common::*;
use sheet::Document;

fn keys(document: &Document, way: &str) -> (u8, String) {
    read(|buffer| document.keys(way.as_bytes(), buffer))
}

fn values(document: &Document, way: &str) -> (u8, String) {
    read(|buffer| document.values(way.as_bytes(), buffer))
}

fn element(document: &Document, way: &str, index: u64) -> (u8, String) {
    read(|buffer| document.element(way.as_bytes(), index, buffer))
}

fn gives(text: &str) -> (u8, String) {
    (0, text.to_string())
}

fn refused(number: u8) -> (u8, String) {
    (number, String::new())
}

/// A map at 6d with keys, one of them deleted; a list at 6c with elements, one of them
/// deleted and one a list; the empty key, with a map under it.
fn document() -> Document {
    after(&[
        assign("1.1", "", "6d{62", "i1"),
        assign("2.1", "1", "6d{", "s"),
        assign("3.1", "2", "6d{6200", "t"),
        assign("4.1", "3", "6d{61ff", "f"),
        delete("5.1", "4", "6d{61ff"),
        insert("6.1", "5", "6c[^", "n"),
        insert("7.1", "6", "6c[6.1", "n"),
        insert("8.1", "7", "6c[7.1", "["),
        delete("9.1", "8", "6c[6.1"),
        insert("10.1", "9", "6c[8.1[^", "i-7"),
        assign("11.1", "10", "{61", "s6161"),
        assign("11.2", "10", "{61", "i2"),
    ])
}

#[test]
fn keys_are_in_byte_order_the_shorter_first_and_present() {
    let document = document();
    assert_eq!(keys(&document, "6d{"), gives("\n62\n6200\n"));
    assert_eq!(keys(&document, ""), gives("\n6c\n6d\n"));
    assert_eq!(keys(&document, "{"), gives("61\n"));
    assert_eq!(keys(&document, "6c{"), gives(""), "present, without a map");
    assert_eq!(keys(&document, "6d{62{"), gives(""));
    assert_eq!(keys(&document, "6c[8.1{"), gives(""));
    assert_eq!(keys(&document, "6d{61ff{"), refused(14));
    assert_eq!(keys(&document, "6e{"), refused(14));
    assert_eq!(keys(&Document::new(), ""), gives(""));
}

#[test]
fn values_are_in_id_order() {
    let document = document();
    assert_eq!(values(&document, "{61"), gives("11.1:s6161\n11.2:i2\n"));
    assert_eq!(values(&document, "6d{62"), gives("1.1:i1\n"));
    assert_eq!(values(&document, "6d{"), gives("2.1:s\n"), "the empty key in 6d");
    assert_eq!(values(&document, ""), gives(""), "the empty key has no value");
    assert_eq!(values(&document, "6c[8.1[10.1"), gives("10.1:i-7\n"));
    assert_eq!(values(&document, "6d{61ff"), refused(14));
    assert_eq!(values(&document, "6c[6.1"), refused(14));
    assert_eq!(values(&document, "6c[5.1"), refused(14));
    assert_eq!(values(&document, "6c[6.1{61"), refused(14));
    assert_eq!(values(&Document::new(), ""), refused(14), "the empty key is unknown");
    let document = after(&[assign("1.1", "", "", "t")]);
    assert_eq!(values(&document, ""), gives("1.1:t\n"));
}

#[test]
fn elements_are_counted_from_1_without_the_deleted() {
    let document = document();
    assert_eq!(element(&document, "6c[", 1), gives("7.1\n"));
    assert_eq!(element(&document, "6c[", 2), gives("8.1\n"));
    assert_eq!(element(&document, "6c[", 3), refused(14));
    assert_eq!(element(&document, "6c[", 0), refused(14));
    assert_eq!(element(&document, "6c[8.1[", 1), gives("10.1\n"));
    assert_eq!(element(&document, "6d[", 1), refused(14), "present, without a list");
    assert_eq!(element(&document, "6c[6.1[", 1), refused(14));
    assert_eq!(element(&document, "[", 1), refused(14), "the list of the empty key");
    let document = after(&[insert("1.1", "", "[^", "t")]);
    assert_eq!(element(&document, "[", 1), gives("1.1\n"));
}

#[test]
fn a_present_place_under_one_without_marks_cannot_be() {
    // A sheet whose child has a mark that its parent hasn't is refused, so every present
    // place has a present parent; a known one may have none.
    let document = after(&[assign("1.1", "", "61{62", "t"), delete("2.1", "1", "61")]);
    assert_eq!(values(&document, "61{62"), refused(14));
    assert_eq!(keys(&document, "61{"), refused(14));
    assert_eq!(keys(&document, ""), gives(""));
}

#[test]
fn covering_plays_no_part() {
    let sheet = "sheet=1\nseen=0,7,0,0,0,0,0,0\nplace=1{l6c\nmark=7.2\nplace=2[-5.2\nmark=7.2\nend=2\n";
    assert_eq!(element(&loaded(sheet), "6c[", 1), gives("5.2\n"));
    assert_eq!(values(&loaded(sheet), "6c[5.2"), gives(""));
}

#[test]
fn ways_that_are_not_in_the_layout() {
    let document = document();
    for way in ["6d", "6c[", "6d{^{", "^", "6", "6G{", "6d{62", "{[", "6c[^{", " {", "6c[6.1", "6d{{{{{{{{{"]
    {
        assert_eq!(keys(&document, way), refused(1), "keys {way}");
    }
    for way in ["6c[", "6c[^", "^", "6", "6c[6", "6c[6.1[", "6d}", "6c[06.1", "6c[6.9", "6d{{{{{{{{"] {
        assert_eq!(values(&document, way), refused(1), "values {way}");
    }
    for way in ["", "6c", "6c{", "6c[^", "6c[^[", "6c[[", "6c[7.1", "6d{{{{{{{{["] {
        assert_eq!(element(&document, way, 1), refused(1), "element {way}");
    }
    // Eight keys, the last seven empty.
    assert_eq!(keys(&document, "6d{{{{{{{{"), refused(14));
    assert_eq!(values(&document, "6d{{{{{{{"), refused(14));
    assert_eq!(element(&document, "6d{{{{{{{[", 1), refused(14));
}
