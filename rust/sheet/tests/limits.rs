//! The limits that document 01 lists at "Run, not proved", and those of "Places" and "Messages".

mod common;
use common::*;
use sheet::{read_message, size_of, Answer, Document, Plain, Value, MOST};
use vectors::make;
use vectors::random::Random;

/// Receives the message of an edit that terminal 1 would make now.
fn next(document: &mut Document, at: &str, deed: &str, value: &str) -> Answer {
    let lines = lines(at, deed, value);
    document.receive(&make::next(document, 1, lines.as_bytes()))
}

fn size(document: &Document) -> [usize; 3] {
    assert_eq!(document.size(), size_of(document.root()));
    [document.size().places, document.size().marks, document.size().values]
}

#[test]
fn places_256_and_257() {
    let mut document = Document::new();
    for key in 0..256 {
        assert_eq!(next(&mut document, &format!("{key:02x}"), "assign", "{"), done(1, 0));
    }
    assert_eq!(size(&document), [256, 256, 0]);
    let full = document.clone();
    // Each of these would make one place more.
    for (at, deed) in [
        ("0000", "assign"),
        ("00{61", "assign"),
        ("00[^", "insert"),
        ("0000{61", "delete"),
        ("00{61{62", "delete"),
    ] {
        assert_eq!(next(&mut document, at, deed, "n"), Answer::OverLimit, "{at}");
        assert_eq!(document, full);
    }
    // And these make none.
    for (at, deed) in [("0000", "delete"), ("00{61", "delete"), ("00", "assign"), ("ff", "delete")] {
        assert_eq!(next(&mut document, at, deed, "n"), done(1, 0), "{at}");
    }
    assert_eq!(size(&document), [256, 256, 1]);
}

#[test]
fn places_two_more_of_a_way() {
    let mut document = Document::new();
    for key in 0..254 {
        assert_eq!(next(&mut document, &format!("{key:02x}"), "assign", "{"), done(1, 0));
    }
    assert_eq!(next(&mut document, "61{61{61{61", "assign", "n"), Answer::OverLimit);
    assert_eq!(next(&mut document, "61{61{61", "assign", "n"), done(1, 0));
    assert_eq!(size(&document)[0], 256);
}

#[test]
fn marks_1024_and_1025() {
    let mut document = Document::new();
    let deep = ["61"; 8].join("{");
    for _ in 0..127 {
        assert_eq!(next(&mut document, &deep, "assign", "t"), done(1, 0));
    }
    assert_eq!(size(&document), [8, 1016, 1]);
    for _ in 0..7 {
        assert_eq!(next(&mut document, "61", "assign", "t"), done(1, 0));
    }
    assert_eq!(size(&document), [8, 1023, 2]);
    assert_eq!(next(&mut document, "61{61", "assign", "t"), Answer::OverLimit);
    assert_eq!(next(&mut document, "61", "assign", "t"), done(1, 0));
    assert_eq!(size(&document), [8, 1024, 2]);
    assert_eq!(next(&mut document, "61", "assign", "t"), Answer::OverLimit);
    assert_eq!(next(&mut document, "62[^", "insert", "t"), Answer::OverLimit);
    assert_eq!(next(&mut document, "62{61", "delete", ""), done(1, 0), "a delete marks nothing");
    assert_eq!(size(&document), [9, 1024, 2]);
    // What an assigned map clears makes room for its own marks: 127 go, 8 come.
    assert_eq!(next(&mut document, &deep, "assign", "{"), done(1, 0));
    assert_eq!(size(&document), [9, 905, 1]);
}

#[test]
fn values_256_and_257() {
    let mut document = Document::new();
    for key in 0..256 {
        assert_eq!(next(&mut document, &format!("{key:02x}"), "assign", "n"), done(1, 0));
    }
    assert_eq!(size(&document), [256, 256, 256]);
    assert_eq!(
        document.receive(&assign("1.2", "", "00", "t")),
        Answer::OverLimit,
        "another value at a known key"
    );
    assert_eq!(next(&mut document, "00", "assign", "t"), done(1, 0), "instead of the value there");
    assert_eq!(size(&document), [256, 257, 256]);
    assert_eq!(next(&mut document, "01", "delete", ""), done(1, 0));
    assert_eq!(size(&document), [256, 256, 255]);
    assert_eq!(document.receive(&assign("1.2", "", "00", "t")), done(1, 0));
    assert_eq!(size(&document), [256, 257, 256]);
    assert_eq!(document.receive(&assign("1.3", "", "00", "t")), Answer::OverLimit);
}

#[test]
fn clearing_250_places() {
    let mut document = Document::new();
    assert_eq!(next(&mut document, "6c", "assign", "["), done(1, 0));
    for _ in 0..250 {
        assert_eq!(next(&mut document, "6c[^", "insert", "t"), done(1, 0));
    }
    // One element gets a mark, and a value instead of its own, that the delete doesn't cover.
    assert_eq!(document.receive(&assign("252.2", "251", "6c[100.1", "f")), done(1, 0));
    assert_eq!(size(&document), [251, 503, 250]);
    assert_eq!(document.receive(&delete("253.1", "251", "6c")), done(1, 0));
    assert_eq!(size(&document), [251, 2, 1]);
    assert_eq!(read(|buffer| document.element(b"6c[", 1, buffer)), (0, "100.1\n".to_string()));
    assert_eq!(read(|buffer| document.values(b"6c[100.1", buffer)), (0, "252.2:f\n".to_string()));
}

#[test]
fn integers_at_both_ends_and_one_beyond() {
    let given = |text: &str| read_message(&assign("1.1", "", "61", text)).ok();
    let integer = |text: &str| match given(text)?.edit.deed {
        sheet::Deed::Assign(Value::Plain(Plain::Integer(integer))) => Some(integer),
        _ => None,
    };
    assert_eq!(integer("i9223372036854775807"), Some(9223372036854775807));
    assert_eq!(integer("i9223372036854775808"), None);
    assert_eq!(integer("i-9223372036854775808"), Some(-9223372036854775808));
    assert_eq!(integer("i-9223372036854775809"), None);
    for beyond in ["i18446744073709551616", "i-18446744073709551616", "i99999999999999999999999", "i", "i-"] {
        assert_eq!(integer(beyond), None, "{beyond}");
    }
    for number in [0, 1, -1, 9, 10, -10, 99, 100, 1 << 62, i64::MAX, i64::MAX - 1, i64::MIN, i64::MIN + 1] {
        assert_eq!(integer(&format!("i{number}")), Some(number));
        let document = after(&[assign("1.1", "", "61", &format!("i{number}"))]);
        assert_eq!(read(|buffer| document.values(b"61", buffer)), (0, format!("1.1:i{number}\n")));
    }
    let mut power: i64 = 1;
    for _ in 0..18 {
        power *= 10;
        for number in [power - 1, power, power + 1, -power + 1, -power, -power - 1] {
            assert_eq!(integer(&format!("i{number}")), Some(number));
        }
    }
}

#[test]
fn depth_8_and_9() {
    let mut document = Document::new();
    assert_eq!(next(&mut document, &["61"; 9].join("{"), "assign", "t"), Answer::NotInLayout);
    assert_eq!(next(&mut document, &["61"; 8].join("{"), "assign", "t"), done(1, 0));
    assert_eq!(
        next(&mut document, &format!("{}[^", ["61"; 8].join("{")), "insert", "t"),
        Answer::NotInLayout
    );
    assert_eq!(next(&mut document, &format!("{}[^", ["61"; 7].join("{")), "insert", "t"), done(1, 0));
    assert_eq!(next(&mut document, &format!("{}[2.1", ["61"; 7].join("{")), "insert", "t"), done(1, 0));
    assert_eq!(size(&document), [10, 8 + 8 + 8, 3]);
    let sheet = sheet_of(&document);
    assert!(sheet.contains("place=8{-61\nmark=1.1\nvalue=1.1:t\nplace=8[-2.1\n"), "{sheet}");
    // The final `{` or `[` of a read isn't a key.
    let eight = ["61"; 8].join("{");
    assert_eq!(read(|buffer| document.values(eight.as_bytes(), buffer)), (0, "1.1:t\n".to_string()));
    assert_eq!(document.keys(format!("{eight}{{").as_bytes(), &mut []), wrote(0));
    assert_eq!(document.element(format!("{eight}[").as_bytes(), 1, &mut []), Answer::NotThere);
    let nine = ["61"; 9].join("{");
    assert_eq!(document.values(nine.as_bytes(), &mut []), Answer::NotInLayout);
    assert_eq!(document.keys(format!("{nine}{{").as_bytes(), &mut []), Answer::NotInLayout);
    assert_eq!(document.element(format!("{nine}[").as_bytes(), 1, &mut []), Answer::NotInLayout);
}

#[test]
fn waiting_64_and_65() {
    let mut document = Document::new();
    for counter in (2..=66).rev() {
        let answer =
            document.receive(&assign(&format!("{counter}.1"), &format!("{}", counter - 1), "61", "t"));
        let expected = if counter == 2 { Answer::TooManyWait } else { Answer::Waits };
        assert_eq!(answer, expected, "{counter}");
    }
    assert_eq!(document.waiting().len(), 64);
    assert_eq!(document.receive(&assign("1.1", "", "61", "t")), done(1, 0), "2.1 found no room");
    assert_eq!(document.receive(&assign("2.1", "1", "61", "t")), done(65, 0));
    assert_eq!(document.seen().0[0], 66);
    assert!(document.waiting().is_empty());
}

#[test]
fn keys_and_strings_of_16_and_32_bytes() {
    let in_layout = |at: &str, value: &str| read_message(&assign("1.1", "", at, value)).is_ok();
    for (bytes, is) in [(0, true), (1, true), (15, true), (16, true), (17, false), (32, false)] {
        assert_eq!(in_layout(&"00".repeat(bytes), "n"), is, "key of {bytes}");
        assert_eq!(in_layout(&format!("61{{{}", "ff".repeat(bytes)), "n"), is, "key of {bytes}");
    }
    for (bytes, is) in [(0, true), (1, true), (31, true), (32, true), (33, false), (64, false)] {
        assert_eq!(in_layout("61", &format!("s{}", "00".repeat(bytes))), is, "string of {bytes}");
    }
}

#[test]
fn longest_message_of_463_bytes() {
    let way = vec!["ee".repeat(16); 8].join("{");
    let deps = ["4294967294"; 8].join(",");
    let longest = assign("4294967295.8", &deps, &way, &format!("s{}", "dd".repeat(32)));
    assert_eq!(longest.len(), 463);
    assert_eq!(sheet::LONGEST, 463);
    let operation = read_message(&longest).unwrap();
    let mut printed = Vec::new();
    operation.write(&mut printed);
    assert_eq!(printed, longest);
}

#[test]
fn the_kept_size_is_the_size_and_within_the_limits() {
    let mut random = Random::new(5);
    let mut tens = 0;
    for deeper in [40, 60, 85] {
        let taste = make::Taste { deeper, astray: 2 };
        let mut document = Document::new();
        for _ in 0..1500 {
            let message = make::wild(&mut random, &document, taste, 1..=3);
            let answer = document.receive(&message);
            tens += usize::from(answer == Answer::OverLimit);
            let size = size_of(document.root());
            assert_eq!(document.size(), size);
            assert!(size.places <= MOST.places && size.marks <= MOST.marks && size.values <= MOST.values);
        }
    }
    assert!(tens > 100, "{tens}");
}
